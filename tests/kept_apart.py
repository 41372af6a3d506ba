"""Document 01: "A budget handed over where a distance is due must not pass the checker." An edit that does so never reaches the prover, so no must-fail edit can
show it. Here a copy of the crates, with a small program over them, passes the front end and runs; each edit of it is refused by the front end for its types.
`rt try` proves nothing."""
import pathlib
import shutil
import subprocess
import sys
import tempfile

ROOT = pathlib.Path(__file__).resolve().parent.parent
ABOVE = "scheduler"
LINES = dict(line.split(":") for line in (ROOT / "crates.txt").read_text().splitlines() if line and not line.startswith("#"))
# what the program stands on, bottom to top as crates.txt has it
CRATES = {crate: below for crate, below in LINES.items() if crate in LINES[ABOVE].split() + [ABOVE]}
PROGRAM = """use queue::Queue;
use state::State;
use table::Server;
use table::Table;

fn main() {
    let s = Server::zero();
    let mut q = Queue::empty();
    let _ = q.insert(0, s.period);
    let reach = [s.period; Queue::HELD];
    q.holds(&reach);
    if let Ok(mut state) = State::fresh(&Table::zero()) {
        let _ = scheduler::tick(&mut state);
    }
}
"""
# the crate that is edited, what stands there, what is put there, the type that is due and the type that is handed over
EDITS = (
    ("program", "insert(0, s.period)", "insert(0, s.budget)", "Distance", "Served"),
    ("program", "[s.period; Queue::HELD]", "[s.budget; Queue::HELD]", "&[Distance; 8]", "&[Served; 8]"),
    ("state", "        self.period\n", "        self.budget\n", "Distance", "Served"),
    ("scheduler", "again(t.release.period())", "again(t.work)", "Distance", "Served"),
    ("table", "period: Distance(0)", "period: Served(0)", "Distance", "Served"),
    ("table", "budget: Served(0)", "budget: Distance(0)", "Served", "Distance"),
)


def copy(work):
    for crate in CRATES:
        shutil.copytree(ROOT / "crates" / crate, work / "crates" / crate, ignore=shutil.ignore_patterns("out"))
    (work / "crates" / "program" / "src").mkdir(parents=True)
    (work / "crates" / "program" / "src" / "main.rt").write_text(PROGRAM)
    lines = [f"{crate}:{below}\n" for crate, below in CRATES.items()]
    (work / "crates.txt").write_text("".join(lines) + f"program: {' '.join(CRATES)}\n")


def tried(work):
    """Whether the program passes the front end and runs, and what rt says."""
    run = subprocess.run(["rt", "try"], cwd=work / "crates" / "program", stdin=subprocess.DEVNULL, capture_output=True, text=True, timeout=300)
    return run.returncode == 0, run.stdout + run.stderr


def fault(work, crate, old, new, due, handed):
    """What is wrong with the checker's answer to an edit, or nothing."""
    path = next((work / "crates" / crate / "src").glob("*.rt"))
    text = path.read_text()
    if text.count(old) != 1:
        return f"it does not stand there once: {old}"
    path.write_text(text.replace(old, new))
    try:
        passes, said = tried(work)
    finally:
        path.write_text(text)
    if passes:
        return "it passes the front end"
    if f"error[mismatched-types]: expected `{due}`, found `{handed}`" not in said:
        return f"it is not refused for its types: {said[:300]}"
    return ""


def main():
    with tempfile.TemporaryDirectory() as folder:
        work = pathlib.Path(folder)
        copy(work)
        wrong = []
        passes, said = tried(work)
        if not passes:
            wrong.append(f"the copy itself does not pass: {said[:300]}")
        for edit in EDITS:
            found = fault(work, *edit)
            if found:
                wrong.append(f"{edit[2]} in {edit[0]}: {found}")
    for line in wrong:
        print(f"types: {line}")
    if wrong:
        sys.exit(1)
    print(f"types: the front end refuses {len(EDITS)} edits that hand over a budget for a distance or a distance for a budget")


main()
