"""The disk that tears leaves what docs/GUARANTEES.md says that it may, and each of that."""
import random

from torn import NEW, OLD, TAILS, Disk, Event, File, Way, mixing, torn

OLDER = bytes([1]) * 1000
WRITES = [Event("write", "f", 200, bytes([2]) * 1000), Event("write", "f", 1300, bytes([3]) * 100)]


def left(way: Way, steps: list[Event], seed: int = 0) -> bytes:
    return torn(File(OLDER, steps), way, random.Random(seed))


def test_all_is_old_or_new() -> None:
    assert left(OLD, WRITES) == OLDER
    assert left(NEW, WRITES) == OLDER[:200] + bytes([2]) * 1000 + bytes(100) + bytes([3]) * 100


def test_one_write_alone_and_all_but_one() -> None:
    assert left(Way(only=0), WRITES) == left(Way(but=1), WRITES) == OLDER[:200] + bytes([2]) * 1000
    assert left(Way(only=1), WRITES) == left(Way(but=0), WRITES) == OLDER + bytes(300) + bytes([3]) * 100


def test_tails_are_cut_or_hold_anything() -> None:
    some, zeros, noise, none = (left(way, WRITES[:1]) for way in TAILS)
    whole = OLDER[:200] + bytes([2]) * 1000
    assert 1000 <= len(some) <= 1200 and whole.startswith(some)
    assert zeros == whole[:1000] + bytes(200)
    assert noise[:1000] == whole[:1000] and len(set(noise[1000:])) > 100
    assert none == whole[:1000]


def test_a_mix_is_old_or_new_byte_by_byte_or_sector_by_sector() -> None:
    bytewise, sectors = left(Way(0.5, unit=1), WRITES[:1]), left(Way(0.5, tail=0.0), WRITES[:1], 3)
    assert set(bytewise[200:1000]) == {1, 2} and bytewise[:200] == OLDER[:200]
    assert 300 < bytewise[200:1000].count(1) < 500
    assert {sectors[200:512], sectors[512:1000]} <= {bytes([it]) * count for it in (1, 2) for count in (312, 488)}
    assert {left(Way(unit=1, holes=1), [Event("write", "f", 0, bytes(1000))], seed).count(1) for seed in range(9)} == {1}
    assert {left(Way(holes=1), [Event("write", "f", 0, bytes(1000))], seed).count(1) for seed in range(9)} == {488, 512}
    outcomes = {left(mixing(random.Random(seed)), WRITES, seed) for seed in range(200)}
    assert len(outcomes) > 100
    for outcome in outcomes:
        assert 1000 <= len(outcome) <= 1400 and outcome[:200] == OLDER[:200] and set(outcome[200:1000]) <= {1, 2}


def test_a_length_is_cut_in_whole_or_part() -> None:
    cut = [Event("cut", "f", 300)]
    assert left(OLD, cut) == OLDER and left(NEW, cut) == OLDER[:300]
    assert {300 < len(left(Way(grown=0.5, unit=1), cut, seed)) < 1000 for seed in range(9)} == {True}
    assert left(NEW, [Event("cut", "f", 1100)]) == OLDER + bytes(100)


def test_a_sync_makes_lasting_what_was_written_before() -> None:
    disk = Disk({"f": File(OLDER)})
    for event in (WRITES[0], Event("sync", "f"), WRITES[1]):
        disk.take(event)
    assert disk.crash({"f": OLD}, random.Random()) == {"f": left(NEW, WRITES[:1])}
    assert disk.now() == {"f": left(NEW, WRITES)}


def test_a_file_that_was_made_is_there_once_its_folder_is_synced() -> None:
    disk = Disk({})
    for event in (Event("make", "f"), Event("write", "f", 0, b"a"), Event("sync", "f")):
        disk.take(event)
    outcomes = list(disk.outcomes(random.Random(1), 1))
    assert {} in outcomes and {"f": b"a"} in outcomes
    disk.take(Event("sync_folder"))
    assert list(disk.outcomes(random.Random(1), 1)) == [{"f": b"a"}]
