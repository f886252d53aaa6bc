"""Compiles the library without proof. The kit builds no unproved library, but `rt try` compiles an unproved program: here one that calls
each function of the library. What the compiler made of it is kept while it is there, and compiled again as a library. It has the checks of
`rt try`: a process in which one fails ends by a signal."""
import os
import re
import shutil
import subprocess
import time

CALLS = {
    "nixu": """
use crate::c_entry::CEntry;
use crate::c_fact::CFact;
use crate::c_merge_fault::CMergeFault;
use crate::c_recording::CRecording;
use crate::c_stray::CStray;
use crate::c_verdict::CVerdict;
use crate::handle::Handle;
use std::rt::HostRuntime;

fn main(rt: HostRuntime) {
    let alloc = rt.alloc();
    let mut verdict = CVerdict {
        kind: 0, entries: 0, deliveries: 0, instant: 0, delivery: 0, orphan: 0, line: 0, fault: 0, processes: [0u8; 256],
    };
    let mut stray = CStray { kind: 0, instant: 0, rsn: 0, first: 0, second: 0, line: 0, fault: 0, process: 0 };
    let mut unmerged = CMergeFault {
        recording: 0, line: 0, kind: 0, given: 0, next: 0, lane: 0, ssn: 0, rsn: 0, process: 0, source: 0, dest: 0, missing: [0u8; 256],
    };
    let recordings = [CRecording { text: b"" }];
    let entry = CEntry { kind: 3, ssn: 0, rsn: 0, send: 0, source: 0, dest: 0, who: 0 };
    let mut handle = Handle::new_closed(alloc);
    let mut out = [0u8; 1];
    let mut needed = 0usize;
    let mut fault = 0u32;
    audit::nixu_version();
    audit::nixu_audit(alloc, b"", 0, &mut verdict);
    audit::nixu_audit_each(alloc, b"", &[], &mut []);
    replays::nixu_replays(alloc, b"", &mut stray);
    replays::nixu_trace_replays(alloc, &mut handle, &mut stray);
    explanations::nixu_facts(alloc, b"", 0, &mut verdict, &mut [], &mut needed);
    explanations::nixu_trace_facts(alloc, &mut handle, 0, &mut verdict, &mut [], &mut needed);
    explanations::nixu_reader_facts(alloc, &mut handle, 0, &mut verdict, &mut [], &mut needed);
    merging::nixu_merge(alloc, &recordings, 1, &mut out, &mut needed, &mut unmerged);
    merging::nixu_merge_fault_text(0, &mut out, &mut needed);
    views::nixu_line(alloc, b"", 0, &mut out, &mut needed);
    views::nixu_explain(alloc, b"", 0, &mut out, &mut needed);
    views::nixu_draw(alloc, b"", 0, &mut out, &mut needed);
    faults::nixu_fault_text(0, &mut out, &mut needed);
    reader::nixu_reader_open(alloc, &mut handle);
    reader::nixu_reader_open_within(alloc, &mut handle, 1);
    reader::nixu_reader_feed(alloc, &mut handle, b"", &mut verdict);
    reader::nixu_reader_finish(alloc, &mut handle, &[], &mut []);
    reader::nixu_reader_close(alloc, &mut handle);
    recorder::nixu_trace_open(alloc, &mut handle, 1);
    recorder::nixu_trace_open_within(alloc, &mut handle, 1, 1);
    recorder::nixu_trace_push(alloc, &mut handle, &entry, &[], &mut fault);
    recorder::nixu_trace_audit(alloc, &mut handle, 0, &mut verdict);
    recorder::nixu_trace_text(alloc, &mut handle, &mut out, &mut needed);
    recorder::nixu_trace_close(alloc, &mut handle);
}
""",
    "nixu_node": """
use crate::c_node::{CIdentity, CMessage, CReceived, CSent};
use crate::handle::NodeHandle;
use crate::inspection::CState;
use nixu_boundary::c_determinant::CDeterminant;
use std::rt::HostRuntime;

fn main(rt: HostRuntime) {
    let alloc = rt.alloc();
    let identity = CIdentity { run: 0, clock: 0, seed: 0, lane: 0, processes: 1, faults: 0, process: 0 };
    let determinant = CDeterminant { ssn: 0, rsn: 0, source: 0, dest: 0 };
    let mut sent = CSent { clock: 0, parcel: 0, ssn: 0 };
    let mut received = CReceived { clock: 0, body: 0, parcel: 0, listed: 0, kind: 0, ssn: 0, rsn: 0, lane: 0, source: 0 };
    let mut due = CMessage { ssn: 0, exists: 0, source: 0 };
    let mut state = CState { clock: 0, round: 0, stage: 0, lane: 0, logged: 0, sent: 0, received: 0 };
    let mut node = NodeHandle::new_closed(alloc);
    let mut out = [0u8; 1];
    let mut processes = [0u8; 256];
    let mut to = 0u8;
    let mut needed = 0usize;
    let mut fault = 0u32;
    opening::nixu_node_open(alloc, &mut node, &identity, &mut fault);
    opening::nixu_node_close(alloc, &mut node);
    sending::nixu_node_send(alloc, &mut node, 0, 0, b"", &mut sent, &mut fault);
    sending::nixu_node_receiver(alloc, &mut node, 0, &mut to);
    sending::nixu_node_resend(alloc, &mut node, 0, &mut fault);
    receiving::nixu_node_receive(alloc, &mut node, 0, b"", &mut received, &mut fault);
    receiving::nixu_node_due(alloc, &mut node, &mut due);
    acknowledging::nixu_node_acknowledge(alloc, &mut node, 0, 0, &[], &mut fault);
    lines::nixu_node_line(alloc, &mut node, &mut out, &mut needed);
    keeping::nixu_node_parcel(alloc, &mut node, &mut out, &mut needed);
    keeping::nixu_node_body(alloc, &mut node, &mut out, &mut needed);
    keeping::nixu_node_listed(alloc, &mut node, &mut [], &mut needed);
    storing::nixu_node_unstored(alloc, &mut node, &mut [], &mut needed);
    storing::nixu_node_stored(alloc, &mut node, 0, &determinant, &mut fault);
    storing::nixu_node_forget(alloc, &mut node, 0, &mut fault);
    recovery::nixu_node_begin_round(alloc, &mut node, 0, &mut fault);
    recovery::nixu_node_question(alloc, &mut node, 0, 0, &mut fault);
    recovery::nixu_node_awaited(alloc, &mut node, &mut processes);
    recovery::nixu_node_view(alloc, &mut node, &mut [], &mut needed);
    recovery::nixu_node_take_ended(alloc, &mut node, 0, 0, 0, &mut fault);
    recovery::nixu_node_finish_read(alloc, &mut node, 0, &mut fault);
    recovery::nixu_node_restart(alloc, &mut node, 0, &mut fault);
    lines::nixu_node_header(alloc, &mut node, &mut out, &mut needed);
    lines::nixu_crash_line(alloc, 0, 0, &mut out, &mut needed);
    inspection::nixu_node_inspect(alloc, &mut node, &mut state);
    refusals::nixu_node_fault_text(0, &mut out, &mut needed);
}
""",
}

# A linker prints the text of this section as a warning.
WARNING = """
module asm ".pushsection .gnu.warning"
module asm ".ascii \\22this libnixu.a is built without proof\\22"
module asm ".popsection"
@LIBRARY_unproved = constant i32 1
"""


class Failed(Exception):
    pass


def lay_out(top, room, crates, library):
    """Writes a repository of these crates, given with their lines of crates.txt, in which the library is the program that calls its own functions."""
    os.makedirs(os.path.join(room, ".git"))
    shutil.copy(os.path.join(top, "HANDLES"), room)
    with open(os.path.join(room, "crates.txt"), "w") as file:
        file.writelines(line.replace(" staticlib", "").replace(" core std_alloc std_heap", " std") for line in crates.values())
    for crate in crates:
        for part in ("src", "specs", "proofs"):
            there = os.path.join(top, "crates", crate, part)
            if os.path.isdir(there):
                shutil.copytree(there, os.path.join(room, "crates", crate, part))
    source = os.path.join(room, "crates", library, "src")
    os.rename(os.path.join(source, "lib.rt"), os.path.join(source, "main.rt"))
    with open(os.path.join(source, "main.rt"), "a") as file:
        file.write(CALLS[library])


def caught_module(room, library):
    """Runs `rt try`, and keeps the largest module that it hands to its compiler. The kit removes it, so it is linked as long as it is there."""
    modules, temporary = os.path.join(room, "modules"), os.path.join(room, "tmp")
    for folder in (modules, temporary):
        os.mkdir(folder)
    with open(os.path.join(room, "log"), "wb+") as log:
        given = {"cwd": os.path.join(room, "crates", library), "env": {**os.environ, "TMPDIR": temporary}}
        running = subprocess.Popen(["rt", "try"], stdin=subprocess.DEVNULL, stdout=log, stderr=log, **given)
        while running.poll() is None:
            keep_modules(temporary, modules)
            time.sleep(0.02)
        log.seek(0)
        said = log.read().decode("utf-8", "replace")
    if not re.search(r"^run=ended status=0 .*proved=no$", said, re.M):
        raise Failed(f"rt try compiled no unproved library\n{said[-3000:]}")
    found = sorted((os.path.join(modules, name) for name in os.listdir(modules)), key=os.path.getsize)
    if not found:
        raise Failed("rt try has left no module to compile as a library")
    return found[-1]


def keep_modules(temporary, modules):
    for at, _, names in os.walk(temporary):
        for name in names:
            if name == "module.bc":
                try:
                    os.link(os.path.join(at, name), os.path.join(modules, os.path.basename(at)))
                except OSError:
                    pass  # it is kept already, or gone


def as_library(module, library):
    """The text of a module in which the functions for C are public, under their names in C, and no other is; and these names."""
    module = re.sub(r"^define i32 @main\(", 'define internal i32 @"no main"(', module, flags=re.M)
    module = re.sub(r'@"' + library + r'::\w+::(nixu_\w+)"', r"@\1", module)
    module, count = re.subn(r"^define internal (.*@nixu_\w+\()", r"define \1", module, flags=re.M)
    found = set(re.findall(r"^define .*?@(nixu_\w+)\(", module, re.M))
    if count != len(found):
        raise Failed(f"{library} defines a name twice")
    return module + WARNING.replace("LIBRARY", library), found


def unproved_object(top, kit, room, crates, library):
    """Compiles a library without proof, and returns the object file, and the names that it defines."""
    lay_out(top, room, crates, library)
    clang, text, made = os.path.join(kit, "toolchain", "bin", "clang"), os.path.join(room, "library.ll"), os.path.join(room, f"{library}.o")
    subprocess.run([clang, "-x", "ir", "-S", "-emit-llvm", caught_module(room, library), "-o", text], check=True)
    with open(text) as file:
        module, names = as_library(file.read(), library)
    with open(text, "w") as file:
        file.write(module)
    subprocess.run([clang, "-O2", "-fPIC", "-x", "ir", "-c", text, "-o", made], check=True)
    return made, names
