"""What newcomer.py writes beside what documents have: a plug-in that never ends and has a byte that its host may change, and hosts of
it in C, Python and Rust, each of which prints ENDED. Where `@WORDS@` stands, that line of a document or a header stands then."""

PLUGIN = """static unsigned char room[16];

unsigned char *where(void) { return room; }

int first(void) { return room[0]; }

int spin(void) {
    for (;;)
        room[1]++;
}
"""
ENDED = "by time, by a thread, 7, 7"
C = r"""#include "sfi_run_limit.h"
#include "sfi_run_native.h"
#include "sfi_run_snapshot.h"
#include <pthread.h>
#include <stdio.h>
#include <stdlib.h>

@static struct sfi_run_limit@
static uint8_t image[1 << 26];
static size_t length;
static struct sfi_run_world world = SFI_RUN_NO_WORLD, again = SFI_RUN_NO_WORLD;

static uint32_t called(struct sfi_run_world *it, const char *name, unsigned size) {
    const uint32_t arguments[8] = {0};
    uint64_t result = 0;
    uint32_t pc = 0;
    sfi_run_export(image, length, 0, name, size, &pc);
    sfi_run_function(it, 0, pc, arguments, 1000, NULL, NULL, &result);
    return (uint32_t)result;
}

static bool is_ended(bool by_time) {
    const uint32_t arguments[8] = {0};
    sfi_run_handler *serve = NULL;
    enum sfi_run_ended how;
    uint64_t result;
    uint32_t pc = 0;
    sfi_run_export(image, length, 0, "spin", 4, &pc);
    @const struct sfi_run_watch watch@
    if (by_time) {
        @sfi_run_limit_time(&limit,@
    } else
        sfi_run_limit_renew(&limit);
    @how = sfi_run_function_watched@
    return how == SFI_RUN_ENDED_CUT;
}

static void *end(void *unused) {
    const struct timespec soon = {0, 100000000};
    nanosleep(&soon, NULL);
    sfi_run_limit_end(&limit);
    return unused;
}

int main(void) {
    struct sfi_verdict verdict;
    struct sfi_run_region data;
    enum sfi_run_snapshot taken, restored;
    const uint8_t digest[32] = "busy";
    pthread_t thread;
    FILE *file = fopen("busy.image", "rb");
    length = file ? fread(image, 1, sizeof image, file) : 0;
    if (sfi_run_load(image, length, &world, &verdict) != SFI_RUN_LOADED || !sfi_run_stop(&world, 0))
        return 1;
    printf("by %s, ", is_ended(true) ? "time" : "nothing");
    pthread_create(&thread, NULL, end, NULL);
    printf("by %s, ", is_ended(false) ? "a thread" : "nothing");
    pthread_join(thread, NULL);
    const uint32_t address = called(&world, "where", 5);
    {
        @uint8_t *bytes = sfi_native_data@
        @if (bytes != NULL@
            @bytes[address - data.base]@
    }
    @const size_t size = sfi_run_snapshot_size@
    @uint8_t *bytes = (uint8_t *)malloc@
    @taken = sfi_run_take@
    @sfi_run_load(image, length, &again@
    @restored = sfi_run_restore@
    printf("%u, %u\n", (unsigned)called(&world, "first", 5), (unsigned)called(&again, "first", 5));
    return taken != SFI_RUN_SNAPSHOT_DONE || restored != SFI_RUN_SNAPSHOT_DONE;
}
"""
PYTHON = r"""import threading
from sfi_run import NotReturned
from sfi_run.names import Plugin

def spin(word):
    try:
        plugin.spin()
    except NotReturned as over:
        print(f"by {word}," if over.cause.name == ("TIMED_OUT" if word == "time" else "INTERRUPTED") else over, end=" ")

with open("busy.image", "rb") as file:
    image = file.read()
stop = threading.Event()
@plugin = Plugin(image, steps@
spin("time")
plugin.timeout = None
threading.Timer(0.1, stop.set).start()
spin("a thread")
stop.clear()
at = plugin.where()
plugin.sandbox.write(at, b"\7")
print(plugin.first(), end=", ")
@again = Plugin.restore@
@view = again.sandbox.view@
print(view[0])
"""
RUST = r"""use sfi_run::{names, snapshots, NotReturned, World};
use std::sync::atomic::{AtomicBool, Ordering};
use std::time::{Duration, Instant};

fn main() -> Result<(), Box<dyn std::error::Error>> {
    let image = std::fs::read("busy.image")?;
    let [spin, place, first] = ["spin", "where", "first"].map(|it| names::export(&image, 0, it).unwrap());
    let stop = AtomicBool::new(false);
    let mut world = World::load(&image)?;
    let mut plugin = world.sandbox(0).unwrap();
    plugin.stop()?;
    @plugin.set_deadline@
    @let late@
    print!("by {}, ", if late == Err(NotReturned::TimedOut) { "time" } else { "nothing" });
    plugin.set_deadline(None);
    @plugin.set_interrupt@
    std::thread::scope(|threads| {
        threads.spawn(|| stop.store(true, Ordering::Release));
        @let late@
        print!("by {}, ", if late == Err(NotReturned::Interrupted) { "a thread" } else { "nothing" });
    });
    stop.store(false, Ordering::Release);
    let at = (plugin.call(place, &[0u32; 0], 1000, |_, _| false)? - plugin.data().base) as usize;
    @let bytes@
    bytes.unwrap()[at] = 7;
    print!("{}, ", plugin.call(first, &[0u32; 0], 1000, |_, _| false)?);
    @let kept@
    @let mut again@
    println!("{}", again.sandbox(0).unwrap().call(first, &[0u32; 0], 1000, |_, _| false)?);
    Ok(())
}
"""
