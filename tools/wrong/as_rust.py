"""The repository's programs as one Rust program, to run many wrong versions quickly: what `rt try` does, in a tenth of the
time. Contracts, ghost lines and tactics are taken out; what is left is Rust, but for what `main` is handed and the
macros that print, which are written here."""
import pathlib
import re
import subprocess

KIT = '''#![allow(warnings)]
#[derive(Clone, Copy)]
pub struct HostRuntime;
impl HostRuntime {
    pub fn stdin(self) -> std::io::Stdin {
        std::io::stdin()
    }
}
mod io {
    pub use std::io::*;
    pub trait Print {}
    impl Print for crate::HostRuntime {}
    pub fn writer(_rt: &impl Print) -> Stdout {
        stdout()
    }
}
macro_rules! print {
    ($rt:ident; $($text:tt)*) => {{ std::io::Write::write_fmt(&mut std::io::stdout(), format_args!($($text)*)) }};
}
macro_rules! println {
    ($rt:ident; $text:literal) => { print!($rt; "{}\\n", format_args!($text)) };
}
'''


def built_on(root):
    """Of each crate, the crates that it is built on."""
    lines = (root / "crates.txt").read_text().splitlines()
    return {line.split(":")[0].split()[0]: line.split(":")[1].split() for line in lines if ":" in line and not line.startswith("#")}


def programs(root):
    return [name for name in built_on(root) if (root / "crates" / name / "src" / "main.rt").exists()]


def without_contracts(text):
    """The lines of a file that are no clause, no ghost item, no tactic and no attribute that Rust lacks."""
    kept, depth, inside, clause = [], 0, False, False
    for line in text.split("\n"):
        if not inside:
            if not re.match(r"\s*((requires|ensures)\b|(pub )?ghost |#!?\[tactic\b)|#\[unsafe\(no_mangle\)\]$|#\[rattlefmt::|\s*#\[derive\(Drop\)\]$", line):
                kept.append(line)
                continue
            depth, clause = 0, bool(re.match(r"\s*(requires|ensures)\b", line))
        # to the end of what is opened; a ghost item ends with ;
        depth += sum(line.count(sign) for sign in "{([") - sum(line.count(sign) for sign in "})]")
        inside = depth > 0
        # the last clause of a trait's method has the method's ;
        if clause and not inside and line.endswith(";"):
            kept[-1] += ";"
    return "\n".join(kept)


def as_rust(text, crates, name):
    text = re.sub(r"\bcrate::", f"crate::{name}::", without_contracts(text))
    text = re.sub(r"(#\[derive\([^)]*), Drop\b", r"\1", text)
    # a bound that each type of Rust meets
    text = re.sub(r"(<\w+): Drop>", r"\1>", text)
    # a model has ghost lines alone
    text = re.sub(r"^use std::marker::Model;\n|^impl\b[^{]*\bModel for [^{]*\{\s*\}\n", "", text, flags=re.M)
    text = text.replace("std::num::nearest_u64_to_f64(", "(|n: u64| n as f64)(")
    text = text.replace("fn fmt<W: fmt::Write>(&self, f: &mut fmt::Formatter<W>)", "fn fmt(&self, f: &mut fmt::Formatter)")
    text = re.sub(r"\bstd::io\b", "crate::io", text).replace("HostRuntime", "crate::HostRuntime")
    return re.sub(rf"(?<![\w:.])({'|'.join(crates)})::", r"crate::\1::", text)


def module(root, name, crates):
    folder = root / "crates" / name / "src"
    file = folder / "main.rt" if (folder / "main.rt").exists() else folder / "lib.rt"

    def inner(found):
        return f"pub mod {found[1]} {{\n{as_rust((folder / (found[1] + '.rt')).read_text(), crates, name)}\n}}"

    text = re.sub(r"^(?:pub )?mod (\w+);", inner, as_rust(file.read_text(), crates, name), flags=re.M)
    text = re.sub(r"^pub use (?!crate)", "pub use self::", text, flags=re.M)
    return f"mod {name} {{\n{text.replace('fn main(', 'pub fn main(')}\n}}\n"


def build(root, out):
    """Compiles all programs and what they reach to one; the compiler's words where it cannot."""
    below = built_on(root)
    mains = programs(root)
    reached = {lib for name in mains for lib in below[name]} & set(below)
    crates = [name for name in below if name in reached or name in mains]
    arms = "".join(f'"{name}" => {name}::main(HostRuntime).unwrap(),' for name in mains)
    start = f'''fn main() {{
    let name = std::env::args().nth(1).unwrap();
    let all = move || match name.as_str() {{ {arms} _ => panic!() }};
    std::thread::Builder::new().stack_size(1 << 28).spawn(all).unwrap().join().unwrap();
}}
'''
    source = pathlib.Path(str(out) + ".rs")
    source.write_text(KIT + "".join(module(root, name, crates) for name in crates) + start)
    words = ["rustc", "--edition", "2024", "-C", "opt-level=1", "-C", "overflow-checks=off", "-o", str(out), str(source)]
    ran = subprocess.run(words, capture_output=True, text=True)
    return None if ran.returncode == 0 else ran.stderr


def outcome(root, name, words, seconds=60):
    """What a program that is started by these words writes that is not its 'stdout': nothing, its first such line, or
    that it did not end."""
    crate = root / "crates" / name
    given = crate / "stdin"
    try:
        with (given if given.exists() else pathlib.Path("/dev/null")).open("rb") as text:
            ran = subprocess.run(words, stdin=text, capture_output=True, text=True, timeout=seconds, cwd=crate)
    except subprocess.TimeoutExpired:
        return "did not end"
    wanted, wrote = (crate / "stdout").read_text().splitlines(), ran.stdout.splitlines()
    if ran.returncode != 0:
        return "was stopped"
    if wanted == wrote:
        return None
    return next((line for line in wrote if line not in wanted), "wrote less")


def differs(root, out, name):
    """Likewise what the compiled program writes for one of them."""
    return outcome(root, name, [str(out), name])
