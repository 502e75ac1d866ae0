//! The tool in a temporary folder: `bin` holds it and its programs, it is started in `work`, and `tmp` is for its
//! temporary files. The folder goes with the value.

use super::said::Said;
use std::ffi::{OsStr, OsString};
use std::fs;
use std::io::Write;
use std::path::{Path, PathBuf};
use std::process::{Command, Output, Stdio};
use std::sync::atomic::{AtomicU32, Ordering};

/// The programs that the tool starts.
pub const PROGRAMS: [&str; 3] = ["lorvisk_judge", "lorvisk_run", "lorvisk_sheet"];

pub struct Installed {
    folder: PathBuf,
}

impl Installed {
    /// With the proved programs, started as `tools/build` found them to be.
    pub fn new() -> Installed {
        let installed = Installed::without_programs();
        let built = Path::new(env!("CARGO_MANIFEST_DIR")).join("../../target/lorvisk/programs");
        for program in PROGRAMS {
            let words = fs::read(built.join(program)).expect("run tools/build first");
            installed.start(program, words);
        }
        installed
    }

    /// With an empty folder of programs.
    pub fn without_programs() -> Installed {
        static COUNT: AtomicU32 = AtomicU32::new(0);
        let count = COUNT.fetch_add(1, Ordering::Relaxed);
        let name = format!("lorvisk-{}-{count}", std::process::id());
        let folder = Path::new(env!("CARGO_TARGET_TMPDIR")).join(name);
        for part in ["bin/programs", "work", "tmp"] {
            fs::create_dir_all(folder.join(part)).expect("a temporary folder");
        }
        let tool = folder.join("bin/lorvisk");
        // No copy: a program just written is busy while a child of another test still holds it open.
        fs::hard_link(env!("CARGO_BIN_EXE_lorvisk"), tool).expect("a link to the built tool");
        Installed { folder }
    }

    /// The same, with a line of shell in the place of a program, whose arguments are $0, $1 and on.
    pub fn with(self, program: &str, line: &str) -> Installed {
        assert!(!line.contains('\n'), "a word to a line: {line}");
        self.start(program, format!("/bin/sh\n-c\n{line}\n"));
        self
    }

    /// Says how a program is started.
    pub fn start(&self, program: &str, words: impl AsRef<[u8]>) {
        fs::write(self.programs().join(program), words).expect("a file in programs");
    }

    pub fn programs(&self) -> PathBuf {
        self.folder.join("bin/programs")
    }

    pub fn tool(&self) -> PathBuf {
        self.folder.join("bin/lorvisk")
    }

    /// The path of a name in the folder where the tool is started.
    pub fn path(&self, name: impl AsRef<OsStr>) -> PathBuf {
        self.folder.join("work").join(name.as_ref())
    }

    /// Puts a file there, or a file into a folder there.
    pub fn put(&self, name: impl AsRef<OsStr>, bytes: impl AsRef<[u8]>) {
        fs::write(self.path(name), bytes).expect("a file");
    }

    pub fn put_folder(&self, name: &str) {
        fs::create_dir(self.path(name)).expect("a folder");
    }

    /// The bytes of a file there; none if nothing stands at the name.
    pub fn bytes(&self, name: impl AsRef<OsStr>) -> Option<Vec<u8>> {
        let path = self.path(name);
        match fs::symlink_metadata(&path) {
            Ok(_) => Some(fs::read(&path).expect("a file that can be read")),
            Err(_) => None,
        }
    }

    /// The names in the folder where the tool is started, or in a folder there, hidden ones included.
    pub fn names(&self, folder: &str) -> Vec<String> {
        names(&self.path(folder))
    }

    /// That the tool left nothing in the folder for temporary files.
    #[track_caller]
    pub fn has_no_temporary_files(&self) {
        assert_eq!(names(&self.folder.join("tmp")), [""; 0]);
    }

    /// The tool with these words, without input.
    pub fn command<W: AsRef<OsStr>>(&self, words: &[W]) -> Command {
        self.command_at(&self.tool(), words)
    }

    /// The tool by another path.
    pub fn command_at<W: AsRef<OsStr>>(&self, tool: &Path, words: &[W]) -> Command {
        let mut command = Command::new(tool);
        command
            .args(words)
            .current_dir(self.folder.join("work"))
            .env("TMPDIR", self.folder.join("tmp"))
            .stdin(Stdio::null())
            .stdout(Stdio::piped())
            .stderr(Stdio::piped());
        command
    }

    /// What the tool says to these words.
    pub fn asked<W: AsRef<OsStr>>(&self, words: &[W]) -> Said {
        said(words, self.command(words).output())
    }

    /// What it says when a shell starts it by this line, in which it is `$0` and the words are `$@`.
    pub fn asked_by_shell<W: AsRef<OsStr>>(&self, line: &str, words: &[W]) -> Said {
        let mut shell = self.command_at(Path::new("/bin/sh"), &["-c", line]);
        said(words, shell.arg(self.tool()).args(words).output())
    }

    /// What it says with a file of its folder as standard input.
    pub fn asked_from<W: AsRef<OsStr>>(&self, words: &[W], name: &str) -> Said {
        let input = fs::File::open(self.path(name)).expect("a file as standard input");
        said(words, self.command(words).stdin(input).output())
    }

    /// What it says with a pipe as standard input that these bytes come through, few enough for a pipe to hold.
    pub fn asked_through_pipe<W: AsRef<OsStr>>(&self, words: &[W], bytes: &[u8]) -> Said {
        let mut command = self.command(words);
        let mut child = command.stdin(Stdio::piped()).spawn().expect("the tool");
        if let Some(mut input) = child.stdin.take() {
            // The tool may be gone without reading them.
            let _ = input.write_all(bytes);
        }
        said(words, child.wait_with_output())
    }
}

impl Drop for Installed {
    fn drop(&mut self) {
        let _ = fs::remove_dir_all(&self.folder);
    }
}

fn said<W: AsRef<OsStr>>(words: &[W], output: std::io::Result<Output>) -> Said {
    let words: Vec<OsString> = words.iter().map(|word| word.as_ref().into()).collect();
    Said::of(words, output.expect("the tool was started"))
}

fn names(folder: &Path) -> Vec<String> {
    let entries = fs::read_dir(folder).expect("a folder");
    let name = |entry: std::io::Result<fs::DirEntry>| entry.expect("an entry").file_name();
    let mut names: Vec<String> = entries
        .map(|entry| name(entry).to_string_lossy().into_owned())
        .collect();
    names.sort();
    names
}
