//! Tests of `values`: calls with values of Rust's types, by signatures. What each function answers is by hand.
use sfi_run::names::{import_signature, signature, NameError};
use sfi_run::values::{FindError, Function, ValueError};
use sfi_run::{Event, NotReturned, Sandbox, World};

mod common;
use common::built;

const STEPS: u64 = 10_000;
const STACK: u32 = 256;

/// Functions with nothing of C: each takes and leaves words as its signature says.
const SOURCE: &str = "
.format 2
.sandbox 4096
.export add
.export same
.export second
.export length
.export sum
.export fill
.export greeting
.export torn
.export stack
.export tell
.export plain
.gate exit 0
.import ask 3
        call exit
add:    add  a0, a0, a1
        ret
same:   ret
second: mv   a0, a2
        mv   a1, a3
        ret
length: mv   t0, a0
        li   a0, 0
next:   lbu  t1, 0(t0)
        beq  t1, zero, done
        addi t0, t0, 1
        addi a0, a0, 1
        j    next
done:   ret
sum:    mv   t0, a0
        li   a0, 0
more:   beq  a1, zero, summed
        lbu  t1, 0(t0)
        add  a0, a0, t1
        addi t0, t0, 1
        addi a1, a1, -1
        j    more
summed: ret
fill:   beq  a1, zero, filled
        sb   a2, 0(a0)
        addi a0, a0, 1
        addi a1, a1, -1
        j    fill
filled: ret
greeting:
        la   a0, hello
        ret
torn:   la   a0, broken
        ret
stack:  mv   a0, sp
        ret
tell:   addi sp, sp, -16
        sw   ra, 12(sp)
        call ask
        lw   ra, 12(sp)
        addi sp, sp, 16
        ret
plain:  ret
.data
hello:  .byte 104, 101, 108, 108, 111, 0
broken: .byte 0xff, 0
";

const CLAIMS: [(&str, &str); 10] = [
    ("add", "(ii)i"),
    ("same", "(p)p"),
    ("second", "(lm)m"),
    ("length", "(s)u"),
    ("sum", "(b)u"),
    ("fill", "(wu)v"),
    ("greeting", "()s"),
    ("torn", "()s"),
    ("stack", "(bs)p"),
    ("tell", "(s)i"),
];

fn entry(number: u32, name: &str) -> Vec<u8> {
    [
        &number.to_le_bytes(),
        &[name.len() as u8][..],
        name.as_bytes(),
    ]
    .concat()
}

fn word(bytes: &[u8], at: usize) -> usize {
    u32::from_le_bytes(bytes[at..at + 4].try_into().unwrap()) as usize
}

/// The image of one sandbox, with these entries after those of its table: docs/IMAGE.md has both.
fn claiming(image: &[u8], exports: &[u8], imports: &[u8]) -> Vec<u8> {
    const INIT_AT: usize = 8 + 6 * 4; // the field that says how many first data there are
    let end = image.len() - 16;
    let (exports_size, imports_size) = (word(image, end + 4), word(image, end + 8));
    let middle = end - imports_size;
    let mut made = [&image[..middle], exports, &image[middle..end], imports].concat();
    let sizes = [exports_size + exports.len(), imports_size + imports.len()];
    let numbers = [word(image, end), sizes[0], sizes[1]];
    made.extend(numbers.iter().flat_map(|&it| (it as u32).to_le_bytes()));
    made.extend(b"SFIN");
    let init = word(image, INIT_AT) + exports.len() + imports.len();
    made[INIT_AT..INIT_AT + 4].copy_from_slice(&(init as u32).to_le_bytes());
    made
}

struct Plugin {
    image: Vec<u8>,
    world: World,
}

impl Plugin {
    fn new() -> Plugin {
        Plugin::with_stack(&[entry(STACK, ".stack")])
    }

    /// That whose image claims this of its stack.
    fn with_stack(claims: &[Vec<u8>]) -> Plugin {
        let mut exports = entry(0, ".add(ii)"); // which is no signature
        for (name, letters) in CLAIMS {
            exports.extend(entry(0, &format!(".{name}{letters}")));
        }
        exports.extend(entry(0, ".add(uu)u")); // the first holds
        let imports = [entry(0, ".ask(s)i"), claims.concat()].concat();
        let image = claiming(&built(SOURCE), &exports, &imports);
        let mut world = World::load(&image).unwrap();
        world.sandbox(0).unwrap().stop().unwrap();
        Plugin { image, world }
    }

    fn find(&self, name: &str) -> Function {
        Function::find(&self.image, 0, name).unwrap()
    }

    fn sandbox(&mut self) -> Sandbox<'_> {
        self.world.sandbox(0).unwrap()
    }
}

fn unserved(_: &mut Sandbox, _: sfi_run::Call) -> bool {
    false
}

#[test]
fn numbers() {
    let mut plugin = Plugin::new();
    let [add, same, second] = ["add", "same", "second"].map(|name| plugin.find(name));
    let image = plugin.image.clone();
    let mut sandbox = plugin.sandbox();
    assert_eq!(add.call(&mut sandbox, (2, -5), STEPS, unserved), Ok(-3));
    assert_eq!(
        same.call(&mut sandbox, (u32::MAX,), STEPS, unserved),
        Ok(u32::MAX)
    );
    let wide = (i64::MIN, 0x1234_5678_9abc_def0_u64);
    assert_eq!(
        second.call(&mut sandbox, wide, STEPS, unserved),
        Ok(0x1234_5678_9abc_def0_u64)
    );
    for (letters, bits) in [("(l)l", -2i64), ("(l)l", i64::MAX)] {
        let same = Function::stated(&image, 0, "plain", letters).unwrap();
        assert_eq!(same.call(&mut sandbox, (bits,), STEPS, unserved), Ok(bits));
    }
    let single = Function::stated(&image, 0, "plain", "(f)f").unwrap();
    assert_eq!(
        single.call(&mut sandbox, (-0.5f32,), STEPS, unserved),
        Ok(-0.5f32)
    );
    let double = Function::stated(&image, 0, "plain", "(d)d").unwrap();
    assert_eq!(
        double.call(&mut sandbox, (1e300,), STEPS, unserved),
        Ok(1e300)
    );
    let nothing = Function::stated(&image, 0, "plain", "()v").unwrap();
    assert_eq!(nothing.call(&mut sandbox, (), STEPS, unserved), Ok(()));
}

/// Each narrow value in a register as C's callers extend it, and back.
#[test]
fn narrow_values() {
    let mut plugin = Plugin::new();
    let image = plugin.image.clone();
    let mut sandbox = plugin.sandbox();
    let stated = |letters| Function::stated(&image, 0, "plain", letters).unwrap();
    macro_rules! narrow {
        ($($kind:ty, $letter:literal, $other:ty, [$($value:expr => $word:expr),*], [$($cut:expr => $seen:expr),*];)*) => {$(
            let same = stated(concat!("(", $letter, ")", $letter));
            $(
                let value: $kind = $value;
                assert_eq!(same.call(&mut sandbox, (value,), STEPS, unserved), Ok(value));
                let word = stated(concat!("(", $letter, ")u")).call(&mut sandbox, (value,), STEPS, unserved);
                assert_eq!(word, Ok($word));
            )*
            $(
                let cut: $kind = $seen;
                let seen = stated(concat!("(u)", $letter)).call(&mut sandbox, ($cut,), STEPS, unserved);
                assert_eq!(seen, Ok(cut));
            )*
            let other = same.call::<_, $kind>(&mut sandbox, (<$other>::default(),), STEPS, unserved);
            assert!(matches!(other, Err(ValueError::WrongArguments { .. })));
            let other = same.call::<_, $other>(&mut sandbox, (<$kind>::default(),), STEPS, unserved);
            assert!(matches!(other, Err(ValueError::WrongArguments { .. })));
        )*};
    }
    narrow! {
        i8, "y", i32, [-128 => 0xffff_ff80_u32, 127 => 127u32], [200u32 => -56, 0x100u32 => 0];
        u8, "c", u32, [0 => 0u32, 255 => 255u32], [300u32 => 44, u32::MAX => 255];
        i16, "h", i8, [-32768 => 0xffff_8000_u32, 32767 => 32767u32], [0x8000u32 => -32768, 0x12345u32 => 0x2345];
        u16, "k", u8, [0 => 0u32, 65535 => 65535u32], [u32::MAX => 65535, 65536u32 => 0];
        bool, "t", u8, [false => 0u32, true => 1u32], [2u32 => true, 0x100u32 => false];
    }
    let pair =
        stated("(ychkt)c").call(&mut sandbox, (-1i8, 2u8, 3i16, 4u16, true), STEPS, unserved);
    assert_eq!(pair, Ok(255u8));
    let wide = stated("(u)i").call::<_, i32>(&mut sandbox, (true,), STEPS, unserved);
    assert!(matches!(wide, Err(ValueError::WrongArguments { given, .. }) if given == "(t)i"));
}

#[test]
fn texts_and_bytes() {
    let mut plugin = Plugin::new();
    let [length, sum, fill, greeting, stack] =
        ["length", "sum", "fill", "greeting", "stack"].map(|name| plugin.find(name));
    let mut sandbox = plugin.sandbox();
    let before = sandbox.registers().x[2];
    assert_eq!(
        length.call(&mut sandbox, ("gr\u{fc}n",), STEPS, unserved),
        Ok(5u32)
    );
    assert_eq!(length.call(&mut sandbox, ("",), STEPS, unserved), Ok(0u32));
    assert_eq!(
        sum.call(&mut sandbox, (&[1u8, 2, 250][..],), STEPS, unserved),
        Ok(253u32)
    );
    assert_eq!(
        sum.call(&mut sandbox, (&[][..],), STEPS, unserved),
        Ok(0u32)
    );
    let mut bytes = [9; 17];
    assert_eq!(
        fill.call(&mut sandbox, (&mut bytes[1..16], 7u32), STEPS, unserved),
        Ok(())
    );
    assert_eq!(bytes[..], [[9].as_slice(), &[7; 15], &[9]].concat()[..]);
    let told = greeting.call(&mut sandbox, (), STEPS, unserved);
    assert_eq!(told, Ok(Some("hello".to_string())));
    // 17 bytes and a text of 15 with its 0 take 32 and 16 of the stack
    let text = "fifteen letters";
    let at: u32 = stack
        .call(&mut sandbox, (&bytes[..], text), STEPS, unserved)
        .unwrap();
    assert_eq!(at, before - 48);
    let mut laid = [0; 48];
    sandbox.read(at, &mut laid).unwrap();
    assert_eq!(laid[..33], [text.as_bytes(), &[0], &bytes].concat()[..]);
}

#[test]
fn texts_that_are_none() {
    let mut plugin = Plugin::new();
    let torn = plugin.find("torn");
    let null = Function::stated(&plugin.image, 0, "plain", "(p)s").unwrap();
    let mut sandbox = plugin.sandbox();
    let text = |function: &Function, sandbox: &mut Sandbox| {
        function.call::<_, Option<String>>(sandbox, (), STEPS, unserved)
    };
    assert_eq!(text(&torn, &mut sandbox), Err(ValueError::NoText));
    let end = sandbox.data().base + sandbox.data().size;
    for (at, found) in [
        (0u32, Ok(None)),
        (4, Err(ValueError::NoText)),
        (end, Err(ValueError::NoText)),
    ] {
        assert_eq!(null.call(&mut sandbox, (at,), STEPS, unserved), found);
    }
    sandbox.write(end - 2, b"ab").unwrap();
    assert_eq!(
        null.call::<_, Option<String>>(&mut sandbox, (end - 2,), STEPS, unserved),
        Err(ValueError::NoText)
    );
    sandbox.write(end - 2, b"a\0").unwrap();
    assert_eq!(
        null.call(&mut sandbox, (end - 2,), STEPS, unserved),
        Ok(Some("a".to_string()))
    );
}

#[test]
fn wrong_arguments() {
    let mut plugin = Plugin::new();
    let [add, length] = ["add", "length"].map(|name| plugin.find(name));
    let mut sandbox = plugin.sandbox();
    let steps = sandbox.steps();
    let wrong = |given: &str| ValueError::WrongArguments {
        name: "add".to_string(),
        signature: "(ii)i".to_string(),
        given: given.to_string(),
    };
    let three = add.call::<_, i32>(&mut sandbox, (1, 2, 3), STEPS, unserved);
    assert_eq!(three, Err(wrong("(iii)i")));
    assert_eq!(
        add.call::<_, i32>(&mut sandbox, (), STEPS, unserved),
        Err(wrong("()i"))
    );
    assert_eq!(
        add.call::<_, i32>(&mut sandbox, (1, 2u32), STEPS, unserved),
        Err(wrong("(iu)i"))
    );
    assert_eq!(
        add.call::<_, ()>(&mut sandbox, (1, 2), STEPS, unserved),
        Err(wrong("(ii)v"))
    );
    assert_eq!(
        wrong("()i").to_string(),
        "add has the signature (ii)i, and is called as ()i"
    );
    let cut = length.call::<_, u32>(&mut sandbox, ("a\0b",), STEPS, unserved);
    assert_eq!(cut, Err(ValueError::ZeroInText));
    let most = STACK / 2;
    let long = "x".repeat(most as usize);
    let too_long = length.call::<_, u32>(&mut sandbox, (long.as_str(),), STEPS, unserved);
    assert_eq!(too_long, Err(ValueError::TooLong { bytes: 144, most }));
    assert_eq!(sandbox.steps(), steps);
    assert_eq!(
        length.call(&mut sandbox, (&long[1..],), STEPS, unserved),
        Ok(127u32)
    );
}

#[test]
fn stacks_of_other_sizes() {
    let long = "x".repeat(4096);
    for (claims, wanted) in [
        (vec![], 1024),
        (vec![entry(64, ".stack"), entry(4096, ".stack")], 32),
        (vec![entry(u32::MAX, ".stack")], u32::MAX), // more than there is
    ] {
        let mut plugin = Plugin::with_stack(&claims);
        let length = plugin.find("length");
        let mut sandbox = plugin.sandbox();
        let there = sandbox.data().size - 16; // the stack begins there
        let most = wanted.min(there);
        let too_long = length.call::<_, u32>(&mut sandbox, (long.as_str(),), STEPS, unserved);
        let error = ValueError::TooLong { bytes: 4112, most };
        assert_eq!(too_long, Err(error));
        let longest = &long[..most as usize - 1];
        if most < there {
            assert_eq!(
                length.call(&mut sandbox, (longest,), 100_000, unserved),
                Ok(most - 1)
            );
        }
    }
}

#[test]
fn handlers_and_what_does_not_return() {
    let mut plugin = Plugin::new();
    let [add, length, tell] = ["add", "length", "tell"].map(|name| plugin.find(name));
    let mut sandbox = plugin.sandbox();
    let refused = tell.call::<_, i32>(&mut sandbox, ("x",), STEPS, unserved);
    assert_eq!(refused, Err(ValueError::NotReturned(NotReturned::Refused)));
    let few = add.call::<_, i32>(&mut sandbox, (1, 2), 1, unserved);
    assert_eq!(few, Err(ValueError::NotReturned(NotReturned::StepsUsed)));
    // while the call waits, others run on its stack, and its text stays
    let told = tell.call(&mut sandbox, ("outer",), STEPS, |sandbox, call| {
        let found: u32 = length
            .call(sandbox, ("in a handler",), STEPS, unserved)
            .unwrap();
        let mut text = [0; 6];
        sandbox.read(call.a0, &mut text).unwrap();
        assert_eq!(&text, b"outer\0");
        assert!(matches!(sandbox.event(), Event::Call(_)));
        sandbox.reply(found, 0).is_ok()
    });
    assert_eq!(told, Ok(12));
}

#[test]
fn signatures() {
    let plugin = Plugin::new();
    let image = &plugin.image;
    assert_eq!(signature(image, 0, "add"), Ok(Some("(ii)i".to_string())));
    assert_eq!(signature(image, 0, "plain"), Ok(None));
    assert_eq!(signature(image, 1, "add"), Err(NameError::NoSandbox));
    assert_eq!(
        import_signature(image, 0, "ask"),
        Ok(Some("(s)i".to_string()))
    );
    assert_eq!(
        Function::find(image, 0, "plain"),
        Err(FindError::NoSignature)
    );
    assert_eq!(
        Function::find(image, 0, "none"),
        Err(FindError::NoSignature)
    );
    assert_eq!(
        Function::stated(image, 0, "none", "()v"),
        Err(FindError::Name(NameError::NoName))
    );
    assert_eq!(
        Function::stated(image, 0, "add", "(ii)i"),
        Function::find(image, 0, "add")
    );
    let (stated, claimed) = ("(uu)u".to_string(), "(ii)i".to_string());
    assert_eq!(
        Function::stated(image, 0, "add", "(uu)u"),
        Err(FindError::WrongSignature { stated, claimed })
    );
    for no_signature in [
        "",
        "()",
        "ii)i",
        "(b)b",
        "(v)v",
        "(iiiiiiiii)i",
        "(dddld)v",
        "(i)i)i",
        "(ychkticyh)v",
    ] {
        assert_eq!(
            Function::stated(image, 0, "add", no_signature),
            Err(FindError::NoSuchSignature(no_signature.to_string()))
        );
    }
}

#[test]
fn what_a_call_that_waits_leaves_of_the_stack() {
    const SIZE: u32 = 2048;
    for above in [0, 64] {
        let mut claims = vec![entry(SIZE, ".stack")];
        if above > 0 {
            claims.push(entry(above, ".room"));
        }
        let mut plugin = Plugin::with_stack(&claims);
        let (tell, length) = (plugin.find("tell"), plugin.find("length"));
        let mut sandbox = plugin.sandbox();
        let data = sandbox.data();
        let bottom = data.base + data.size - above - SIZE;
        let found = tell.call(
            &mut sandbox,
            ("x".repeat(1000).as_str(),),
            STEPS,
            |sandbox, call| {
                // 16 bytes above the stack's first frame, 1008 of the text, and 16 of the frame
                assert_eq!(sandbox.registers().x[2] - bottom, SIZE - 16 - 1008 - 16);
                let mut told = |count| {
                    length.call::<_, u32>(sandbox, ("y".repeat(count).as_str(),), STEPS, unserved)
                };
                assert_eq!(told(511), Ok(511));
                let wrong = ValueError::TooLong {
                    bytes: 528,
                    most: 512,
                };
                assert_eq!(told(512), Err(wrong));
                sandbox.reply(call.a0, 0).is_ok()
            },
        );
        assert!(found.is_ok_and(|at: i32| at as u32 > bottom));
    }
}
