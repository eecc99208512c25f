"""The tests of `tools/take`, which `tools/scripts-test` runs."""

import os
import shutil
import subprocess

from small_repository import CRATES, same, text_of, write

CHANGELOG = """# Changelog

## Unreleased

### Renamed crates

| Old name | New name |
|---|---|
| `older_left` | `old_left` |
| `old_left` | `left` |
| `old_error` | `gix_object`, module `error` |
| `ring` | `other_ring` |
| `other_ring` | `ring` |

### Others

| `bottom` | `low` |

## 0.1.0

### Renamed crates

| `old_low` | `low` |
"""
LICENCES = ("LICENSE-APACHE", "LICENSE-MIT")
LOW, LEFT = "crates/low/src/lib.rt", "crates/left/src/lib.rt"
LEFT_LICENCES = [f"crates/left/{it}" for it in LICENCES]


def copied(repository):
    """The files of the folder that gets copies, without the record of their checksums."""
    top = repository.other
    found = [os.path.relpath(f"{at}/{it}", top) for at, _, names in os.walk(top) for it in names]
    return sorted(it for it in found if it != "taken.sha256")


def recorded(repository):
    """The recorded files. Their checksums are those that sha256sum computes."""
    how = dict(stdout=subprocess.PIPE, stderr=subprocess.STDOUT, text=True, cwd=repository.other)
    ended = subprocess.run(["sha256sum", "--quiet", "-c", "taken.sha256"], check=False, **how)
    same((ended.returncode, ended.stdout), (0, ""))
    return sorted(line.split("  ", 1)[1] for line in text_of(f"{repository.other}/taken.sha256").splitlines())


def rename(repository, *pairs):
    """Makes the copies those of an earlier state, which had these names: each pair is the old and the new name."""
    write(f"{repository.top}/CHANGELOG.md", CHANGELOG)
    record = f"{repository.other}/taken.sha256"
    for old, new in pairs:
        os.rename(f"{repository.other}/crates/{new}", f"{repository.other}/crates/{old}")
        write(record, text_of(record).replace(f"  crates/{new}/", f"  crates/{old}/"))


def copies_crate_with_dependencies(repository):
    crate = f"{repository.top}/crates/left"
    write(f"{crate}/must-fail/one.edit", "file: src/lib.rt\n")
    write(f"{crate}/out/left.log", "proved\n")
    write(f"{crate}/.hidden", "hidden\n")
    same(repository.take("left"), (0, "low: bstr\nleft: low\n", ""))
    wanted = sorted([LOW, LEFT, "crates/left/.hidden", *LEFT_LICENCES])
    same(copied(repository), wanted)
    same(recorded(repository), wanted)
    same(text_of(f"{repository.other}/{LEFT}"), "left\n")


def copies_gix_object_by_default(repository):
    same(repository.take()[:2], (0, "low: bstr\nleft: low\ngix_object: left low thiserror\n"))
    same(os.path.exists(f"{repository.other}/crates/apart"), False)


def leaves_out_copies_of_same_state(repository):
    repository.take("left")
    same(repository.take("left", "apart"), (0, "apart: bstr\n", ""))
    same(repository.take("apart"), (0, "", ""))
    same([it for it in recorded(repository) if it.endswith(".rt")], ["crates/apart/src/lib.rt", LEFT, LOW])


def copies_nothing_to_folder_of_others(repository):
    write(f"{repository.other}/{LOW}", "another\n")
    message = "tools/take: there already, and no copy of this state: low\n"
    same(repository.take("left"), (1, "", message))
    same(copied(repository), [LOW])
    os.remove(f"{repository.other}/{LOW}")
    os.rmdir(f"{repository.other}/crates/low/src")
    os.rmdir(f"{repository.other}/crates/low")
    repository.take("low")
    write(f"{repository.top}/{LOW}", "of a later state\n")
    same(repository.take("left"), (1, "", message))


def reports_missing_folder_and_unknown_crate(repository):
    same(repository.run("take", "nowhere"), (1, "", "tools/take: no folder nowhere\n"))
    same(repository.take("low", "nothing"), (1, "", "tools/take: no crate nothing\n"))
    same(copied(repository), [])
    message = f"tools/take: no taken.sha256 in {repository.other}: it has no copy that this script made\n"
    same(repository.update(), (1, "", message))


def updates_copies(repository):
    repository.take("left")
    write(f"{repository.other}/crates/low/out/low.log", "proved\n")
    write(f"{repository.top}/{LOW}", "later\n")
    write(f"{repository.top}/crates/left/specs/Lib.antt", "added\n")
    os.rename(f"{repository.top}/{LEFT}", f"{repository.top}/crates/left/src/main.rt")
    same(repository.update(), (0, "low: bstr\nleft: low\n", ""))
    wanted = sorted([LOW, "crates/left/src/main.rt", "crates/left/specs/Lib.antt", *LEFT_LICENCES])
    same(recorded(repository), wanted)
    same(copied(repository), sorted([*wanted, "crates/low/out/low.log"]))
    same(text_of(f"{repository.other}/{LOW}"), "later\n")


def updates_nothing_if_copy_is_changed(repository):
    repository.take("left")
    write(f"{repository.top}/{LEFT}", "later\n")
    message = f"tools/take: changed since it was copied: {LOW}\n"
    write(f"{repository.other}/{LOW}", "changed\n")
    same(repository.update(), (1, "", message))
    os.remove(f"{repository.other}/{LOW}")
    same(repository.update(), (1, "", message))
    shutil.rmtree(f"{repository.other}/crates/low")
    same(repository.update(), (1, "", message))
    same(text_of(f"{repository.other}/{LEFT}"), "left\n")


def updates_nothing_if_dependency_is_there(repository):
    repository.take("left")
    write(f"{repository.top}/crates.txt", CRATES.replace("left: low", "left: low apart"))
    write(f"{repository.other}/crates/apart/src/lib.rt", "another\n")
    same(repository.update(), (1, "", "tools/take: there already, but not copied: apart\n"))


def keeps_crate_that_is_no_dependency(repository):
    repository.take("left")
    write(f"{repository.top}/crates.txt", CRATES.replace("left: low", "left:"))
    for _ in range(2):
        same(repository.update(), (0, "left:\n", "tools/take: no dependency any more: low\n"))
        same(recorded(repository), sorted([LOW, LEFT, *LEFT_LICENCES]))
    shutil.rmtree(f"{repository.other}/crates/low")
    same(repository.update(), (0, "left:\n", ""))
    same(recorded(repository), sorted([LEFT, *LEFT_LICENCES]))


def reports_new_name_of_crate(repository):
    write(f"{repository.top}/CHANGELOG.md", CHANGELOG)
    for old, what in (
        ("old_low", ": it is low now"),
        ("older_left", ": it is left now"),
        ("old_error", ": it is gix_object, module error now"),
        ("ring", ""),
        ("bottom", ""),
    ):
        same(repository.take(old), (1, "", f"tools/take: no crate {old}{what}\n"))
    same(copied(repository), [])


def updates_renamed_crates(repository):
    repository.take("left")
    rename(repository, ("old_low", "low"), ("older_left", "left"))
    status, output, errors = repository.update()
    same((status, output), (0, "low: bstr\nleft: low\n"))
    begins = "tools/take: "
    same(errors.splitlines(), [
        f"{begins}old_low is low now: delete crates/old_low and its line in crates.txt",
        f"{begins}older_left is left now: delete crates/older_left and its line in crates.txt",
    ])
    wanted = sorted([LOW, LEFT, *LEFT_LICENCES])
    same(recorded(repository), wanted)
    same(text_of(f"{repository.other}/crates/older_left/src/lib.rt"), "left\n")
    for old in ("old_low", "older_left"):
        shutil.rmtree(f"{repository.other}/crates/{old}")
    same(recorded(repository), wanted)
    same(repository.update(), (0, "low: bstr\nleft: low\n", ""))
    same(copied(repository), wanted)


def updates_crate_that_is_module_now(repository):
    repository.take("apart")
    rename(repository, ("old_error", "apart"))
    status, output, errors = repository.update()
    same((status, output), (0, "low: bstr\nleft: low\ngix_object: left low thiserror\n"))
    what = "old_error is gix_object, module error now: delete crates/old_error and its line in crates.txt"
    same(errors, f"tools/take: {what}\n")
    same([it for it in recorded(repository) if "LICENSE" in it], [f"crates/gix_object/{it}" for it in LICENCES])


def updates_nothing_if_renamed_crate_is_changed(repository):
    repository.take("left")
    rename(repository, ("old_left", "left"))
    write(f"{repository.other}/crates/old_left/src/lib.rt", "changed\n")
    message = "tools/take: changed since it was copied: crates/old_left/src/lib.rt\n"
    same(repository.update(), (1, "", message))
    same(os.path.exists(f"{repository.other}/crates/left"), False)


TESTS = [
    copies_crate_with_dependencies,
    copies_gix_object_by_default,
    leaves_out_copies_of_same_state,
    copies_nothing_to_folder_of_others,
    reports_missing_folder_and_unknown_crate,
    updates_copies,
    updates_nothing_if_copy_is_changed,
    updates_nothing_if_dependency_is_there,
    keeps_crate_that_is_no_dependency,
    reports_new_name_of_crate,
    updates_renamed_crates,
    updates_crate_that_is_module_now,
    updates_nothing_if_renamed_crate_is_changed,
]
