"""Tests of device/store.c beside the model of tools/suygapid/trials/store_walk.py. CUTS in the environment is how often the power is cut."""
import ctypes
import hashlib
import os
import shutil
import sys
import tempfile
import unittest

sys.dont_write_bytecode = True
TOP = os.path.dirname(os.path.dirname(os.path.dirname(os.path.dirname(os.path.abspath(__file__)))))
sys.path.insert(0, os.path.join(TOP, "tools"))
import attacks
import testing
from suygapid.trials import store, store_walk
from suygapid.trials.flash import PIECES, Misused

CUTS = int(os.environ.get("CUTS", "10000"))
MISTAKE_CUTS = 1500  # in which a mistake has to be seen
ATTACKS = 400  # rounds of attacks.py
ONE_RECORD = (256, 64)  # a flash whose sectors hold one record each
MISTAKES = (  # what, the text of store.c, and the text in its place
    ("the latest record's sector is erased", "store->place < size ? size : 0", "store->place < size ? 0 : size"),
    ("a record's check isn't looked at", "return are_same(&sealed, record, sizeof sealed)", "return true"),
    ("the last sector counts, not the later", "&& (!is_there || (int32_t)(last.generation - store->record.generation) > 0)", ""),
    ("a record is written to a place that was cut", "!is_erased(store, next)", "false"),
    ("a sector has no generation of its own", "store->record.generation + (place / size != store->place / size)",
     "store->record.generation"),
    ("an update takes the place of what runs", "return store->chosen == 0 ? 1 : 0", "return store->chosen == 1 ? 1 : 0"),
    ("an area is erased before the record says so", "versions[area].state != SFI_DEVICE_VERSION_NONE &&", "layout == 0 &&"),
    ("every other sector isn't erased", "length; done += store->flash->sector_size", "length; done += 2 * store->flash->sector_size"),
    ("an update's digest isn't looked at", "!has_image(store, store->target, &store->update.claim)", "false"),
    ("a started version's digest isn't", "!has_image(store, area, &version->claim)", "false"),
    ("a trial's start isn't on record", "return version->starts < store->trial_starts &&", "return version->starts < store->trial_starts ||"),
    ("a trial has a start too many", "version->starts < store->trial_starts", "version->starts <= store->trial_starts"),
    ("a version is bad until the next reset", "status = write_state(store, area, SFI_DEVICE_VERSION_BAD, store->record.versions[area].starts)",
     "status = SFI_DEVICE_STORE_DONE"),
    ("the older version is started", "version->claim.sequence > store->record", "version->claim.sequence < store->record"),
    ("versions go back", "next.least_sequence = higher(next.least_sequence, version->claim.least_sequence)", "(void)higher"),
    ("an update is taken again", "update.claim.sequence <= latest_sequence(store)", "update.claim.sequence < latest_sequence(store)"),
    ("signatures aren't asked for", "!is_signed(store, version)", "false"),
    ("the counter isn't raised", "!is_counter_behind(store) || store->raise", "true || store->raise"),
    ("what was kept before a cut is forgotten", "claimed <= store->record.least_sequence && is_signed", "false && is_signed"),
    ("a claim that wasn't kept counts", "claimed <= store->record.least_sequence && ", ""),
    ("an update comes before the counter", "!(is_running && is_counter_behind(store))", "is_running == is_running"),
    ("the watchdog stays on", "    watch(store, false);\n    bool is_raised", "    bool is_raised"),
    ("no watchdog watches a trial", "watch(store, is_on_trial(store))", "watch(store, false)"),
    ("an update's last bytes aren't written", "store->taken % store->flash->page_size != 0 && !write_page(store)", "false"),
)
HOSTILE_MISTAKES = (
    ("a sequence number that nobody signed counts", "version->claim.sequence > latest && is_signed(store, version)",
     "version->claim.sequence > latest"),
    ("a least number that nobody signed counts", "claimed <= store->record.least_sequence && is_signed(store, version)", "true"),
    ("the record's least number counts", "store->record.least_sequence = believed_least(store)", "(void)believed_least"),
    ("the counter is raised at a start", "    store->is_chosen = true;",
     "    store->is_chosen = true;\n    if (is_counter_behind(store)) store->raise_counter(store->host, store->record.least_sequence);"),
    ("signatures aren't asked for", "!is_signed(store, version)", "false"),
    ("a started version's digest isn't looked at", "!has_image(store, area, &version->claim)", "false"),
    ("the last generation stays the latest", "(int32_t)(last.generation - store->record.generation) > 0",
     "last.generation > store->record.generation"),
)


@unittest.skipUnless(shutil.which("gcc"), "gcc isn't there")
class Stores(unittest.TestCase):
    @classmethod
    def setUpClass(cls):
        cls.room = tempfile.TemporaryDirectory()
        cls.addClassCleanup(cls.room.cleanup)
        cls.library = store.build(cls.room.name)

    def walk(self, library, cuts):
        """Walks in flashes of each shape until the power was cut so often."""
        for number, shape in enumerate(store_walk.SHAPES):
            one = store_walk.Walk(library, number, shape)
            while one.flash.cuts < cuts // len(store_walk.SHAPES):
                one.step(cuts=True)

    def test_digests(self):
        for length in (0, 1, 55, 56, 63, 64, 65, 119, 120, 1000):
            data, state, digest = bytes(range(250)) * 4, ctypes.create_string_buffer(256), ctypes.create_string_buffer(32)
            self.library.sfi_device_sha256_begin(state)
            self.library.sfi_device_sha256_add(state, data[:7 * length // 10], 7 * length // 10)
            self.library.sfi_device_sha256_add(state, data[7 * length // 10:length], length - 7 * length // 10)
            self.library.sfi_device_sha256_end(state, digest)
            self.assertEqual(digest.raw, hashlib.sha256(data[:length]).digest(), length)

    def test_walks(self):
        self.walk(self.library, CUTS)

    def attack(self, library):
        for number, shape in enumerate(store_walk.SHAPES):
            one = attacks.Hostile(library, number, shape)
            for _ in range(ATTACKS // len(store_walk.SHAPES)):
                one.round()

    def test_hostile_flash(self):
        """Whatever is written into the flash, the counter rises to nothing but what was kept, no older version runs, and the next
        update is taken."""
        self.attack(self.library)

    def scenario(self, cut_at=None, piece=None):
        """The versions 1, kept; 2, kept; 3, rejected: so the second area is written twice. How many writes that takes."""
        one = store_walk.Walk(self.library, 1, ONE_RECORD)
        if cut_at is not None:
            one.flash.plan_cut(cut_at, piece)
        one.choose()
        for sequence in (1, 2, 3):
            one.put(store_walk.right(sequence, sequence - 1, one.chance.randbytes(150 * sequence)))
            one.choose()
            (one.reject if sequence == 3 else one.keep)()
        one.choose()
        self.assertEqual(one.flash.cuts, int(cut_at is not None))
        return one

    def test_each_write(self):
        """Each write of these updates is cut, at each piece of it; then all goes on, and another update runs."""
        whole = self.scenario()
        self.assertEqual([it[0] for it in whole.model.versions], ["bad", "good"])
        for cut_at in range(whole.flash.writes):
            for piece in PIECES:
                one = self.scenario(cut_at, piece)
                one.choose()
                if one.is_on_trial():
                    one.reject()
                    one.choose()
                one.keep()
                one.put(store_walk.right(9, 0, b"the next"))
                one.choose()
                self.assertEqual(one.model.versions[one.chosen], ("on trial", 1, 9, 0), (cut_at, piece))

    def test_worn_flash(self):
        """Where nothing can be written, no trial begins, and the good version runs; and where it can again, the trial does."""
        one = store_walk.Walk(self.library, 1, ONE_RECORD)
        one.choose()
        one.put(store_walk.right(1, 0, b"first"))
        one.choose()
        one.keep()
        one.put(store_walk.right(2, 0, b"second"))
        area = ctypes.c_uint32()
        for is_worn, chosen in ((True, 0), (False, 1)):
            one.reset()
            one.flash.is_worn = is_worn
            self.assertEqual(one.call("choose", ctypes.byref(area)), "done")
            self.assertEqual((area.value, one.watched), (chosen, chosen == 1))

    def test_last_generation(self):
        """Behind the last generation the first comes."""
        one = store_walk.Walk(self.library, 1, ONE_RECORD)
        one.choose()
        one.store.record.generation = 2 ** 32 - 2
        one.put(store_walk.right(1, 0, b"first"))
        one.choose()
        one.keep()
        self.assertEqual(one.store.record.generation, 1)
        one.reset()
        self.assertEqual(one.model.versions[0], ("good", 1, 1, 0))

    def test_setup(self):
        one = store_walk.Walk(self.library, 1, ONE_RECORD)
        right = bytes(one.store)
        sector, areas = ONE_RECORD[0], list(one.store.areas)
        beside = ((ctypes.c_uint32 * 2)(areas[0] + 16, areas[1]), (ctypes.c_uint32 * 2)(areas[0], 2 ** 32 - sector))
        for field, value in (("flash", None), ("area_size", 0), ("area_size", 300), ("trial_starts", 0), ("records", areas[1]),
                             ("records", 2 ** 32 - sector), *(("areas", it) for it in beside)):
            one.store = store.Store.from_buffer_copy(right)
            setattr(one.store, field, value)
            self.assertEqual(one.call("open"), "bad setup", field)
            self.assertEqual(one.call("choose", ctypes.byref(ctypes.c_uint32())), "too early", field)

    def test_own_claim(self):
        """An update that was broken off begins anew by the claim that the store has of it, and without a signature isn't signed."""
        one = store_walk.Walk(self.library, 1, ONE_RECORD)
        one.choose()
        image = b"an image"
        right = store_walk.right(1, 0, image)
        claim, signature = right.claim(), right.signature()
        self.assertEqual(one.call("begin", ctypes.byref(claim), signature), "done")
        self.assertEqual(one.call("begin", ctypes.byref(one.store.update.claim), one.store.update.signature), "done")
        self.assertEqual(one.call("begin", ctypes.byref(claim), None), "not signed")
        self.assertEqual(one.call("write", image, len(image)), "too early")

    def mistakes(self, table, run):
        text = (store.DEVICE / "store.c").read_text(encoding="utf-8")
        for what, old, new in testing.by_turns(table, -(-len(table) // 3)):
            with self.subTest(what):
                self.assertEqual(text.count(old), 1, "it stands there once")
                with tempfile.TemporaryDirectory() as room, self.assertRaises((store_walk.Wrong, Misused)):
                    run(store.build(room, text.replace(old, new)))

    def test_mistakes(self):
        """The walks see each of these mistakes of store.c."""
        self.mistakes(MISTAKES, lambda library: self.walk(library, MISTAKE_CUTS))

    def test_hostile_mistakes(self):
        """The attacks see these."""
        self.mistakes(HOSTILE_MISTAKES, self.attack)


if __name__ == "__main__":
    unittest.main()
