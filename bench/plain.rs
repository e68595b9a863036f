// The engine's sources as plain Rust (plain.sh puts them below): what the program is given to read and write with.
#[derive(Clone, Copy)]
pub struct HostRuntime;

impl HostRuntime {
    pub fn stdin(self) -> std::io::Stdin {
        std::io::stdin()
    }

    pub fn stdout(self) -> std::io::Stdout {
        std::io::stdout()
    }

    pub fn stderr(self) -> std::io::Stderr {
        std::io::stderr()
    }
}
