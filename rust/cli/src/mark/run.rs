//! A program run in a folder of its own, with limits. It is no sandbox.

use super::sys::{self, Limits};
use std::fs::{self, File, OpenOptions};
use std::io::{self, Read, Seek};
use std::os::unix::process::{CommandExt, ExitStatusExt};
use std::path::{Path, PathBuf};
use std::process::{Command, ExitStatus};
use std::sync::atomic::{AtomicU64, Ordering};
use std::time::Duration;

/// The most bytes that a program may write to a file.
pub const OUTPUT: u64 = 1 << 20;
/// The most memory that it may have.
pub const MEMORY: u64 = 512 << 20;
/// Where programs are looked for: the same inside bubblewrap and outside.
pub const PATHS: [&str; 3] = ["/usr/local/bin", "/usr/bin", "/bin"];

/// A folder that is removed at the end.
pub struct Room(PathBuf);

impl Room {
    /// A new one.
    pub fn new() -> io::Result<Room> {
        static NEXT: AtomicU64 = AtomicU64::new(0);
        let next = NEXT.fetch_add(1, Ordering::Relaxed);
        let name = format!("vantorel-mark.{}.{next}", std::process::id());
        let path = std::env::temp_dir().join(name);
        fs::create_dir(&path)?;
        Ok(Room(path))
    }

    /// Its path.
    pub fn path(&self) -> &Path {
        &self.0
    }
}

impl Drop for Room {
    fn drop(&mut self) {
        let _ = fs::remove_dir_all(&self.0);
    }
}

/// How a program ended.
#[derive(Clone, PartialEq, Eq, Debug)]
pub enum Ended {
    /// By itself, with status 0.
    Well,
    /// With another status.
    Status(i32),
    /// By a signal.
    Signal(i32),
    /// Not in time.
    Late(Duration),
    /// With more output than it may have.
    Much,
    /// It was not started.
    Never(String),
}

/// What a run left.
pub struct Ran {
    pub ended: Ended,
    pub out: Vec<u8>,
    pub err: Vec<u8>,
    /// What it wrote to the file that was named to it.
    pub file: Option<Vec<u8>>,
    /// How many processes it left running.
    pub left: usize,
}

/// A program that is run again and again.
#[derive(Clone)]
pub struct Program {
    /// The words of its command line. Inside bubblewrap the hand-in's folder is /handin.
    pub words: Vec<String>,
    /// The folder that a run may read, where bubblewrap is used.
    pub folder: PathBuf,
    /// Whether bubblewrap is used.
    pub bwrap: bool,
    /// More files that it may read there, and under which names.
    pub binds: Vec<(PathBuf, String)>,
    /// The name of the variable that names the file for contents.
    pub variable: &'static str,
    pub limits: Limits,
}

/// The limits of a run.
pub fn limits() -> Limits {
    let user = sys::user();
    Limits {
        processor: 3,
        memory: MEMORY,
        file: OUTPUT,
        processes: (user != 0).then(|| sys::processes(user) + 64),
    }
}

/// The limits of a compiler.
pub fn compiler_limits() -> Limits {
    Limits {
        processor: 30,
        memory: 4 << 30,
        file: 256 << 20,
        processes: None,
    }
}

/// Where a program is.
pub fn find(name: &str) -> Option<String> {
    let paths = PATHS.iter().map(|folder| format!("{folder}/{name}"));
    let mut paths = paths.filter(|path| Path::new(path).is_file());
    paths.next()
}

impl Program {
    /// Runs it on standard input with more words, at most so long.
    pub fn run(&self, input: &[u8], more: &[&str], time: Duration) -> Ran {
        let ran = Room::new().and_then(|room| self.inside(&room, input, more, time));
        ran.unwrap_or_else(|why| Ran {
            ended: Ended::Never(why.to_string()),
            out: Vec::new(),
            err: Vec::new(),
            file: None,
            left: 0,
        })
    }

    fn inside(&self, room: &Room, input: &[u8], more: &[&str], time: Duration) -> io::Result<Ran> {
        let path = room.path();
        fs::write(path.join("in"), input)?;
        let open = |name: &str| {
            let mut options = OpenOptions::new();
            options.read(true).write(true).create(true).truncate(true);
            options.open(path.join(name))
        };
        let (mut out, mut err) = (open("out")?, open("err")?);
        let mut command = self.command(path, more);
        command
            .stdin(File::open(path.join("in"))?)
            .stdout(out.try_clone()?)
            .stderr(err.try_clone()?);
        let limits = self.limits;
        // SAFETY: what is done between fork and exec makes system calls alone, and allocates nothing.
        unsafe { command.pre_exec(move || sys::limit(limits)) };
        let mut child = command.spawn()?;
        let pid = child.id();
        let in_time = sys::ended_within(pid, time);
        sys::end_group(pid);
        let status = child.wait()?;
        // inside bubblewrap everything ends with the program; what is met here is bubblewrap's own
        let orphans = sys::end_orphans();
        let left = if self.bwrap { 0 } else { orphans };
        let ended = match in_time {
            false => Ended::Late(time),
            true => ended(status),
        };
        let (out, err) = (whole(&mut out)?, whole(&mut err)?);
        let much = [&out, &err]
            .iter()
            .any(|bytes| bytes.len() as u64 >= self.limits.file);
        Ok(Ran {
            ended: if much { Ended::Much } else { ended },
            out,
            err,
            file: fs::read(path.join("contents")).ok(),
            left,
        })
    }

    /// The command that runs it in a folder with more words.
    pub fn command(&self, room: &Path, more: &[&str]) -> Command {
        let inside = if self.bwrap { Path::new("/room") } else { room };
        let variables = [
            ("PATH", PATHS.join(":").into()),
            ("LC_ALL", "C.UTF-8".into()),
            ("HOME", inside.as_os_str().to_os_string()),
            ("TMPDIR", inside.as_os_str().to_os_string()),
            (self.variable, inside.join("contents").into_os_string()),
        ];
        if !self.bwrap {
            let mut command = Command::new(&self.words[0]);
            command.args(&self.words[1..]).args(more).current_dir(room);
            command.env_clear().envs(variables);
            return command;
        }
        let mut command = Command::new("bwrap");
        command.args(BWRAP);
        command.arg("--ro-bind").arg(&self.folder).arg("/handin");
        for (path, name) in &self.binds {
            command.arg("--ro-bind").arg(path).arg(name);
        }
        command
            .arg("--bind")
            .arg(room)
            .arg("/room")
            .args(["--chdir", "/room", "--clearenv"]);
        for (name, value) in variables {
            command.arg("--setenv").arg(name).arg(value);
        }
        command.arg("--").args(&self.words).args(more);
        command.env_clear().env("PATH", PATHS.join(":"));
        command
    }
}

/// What bubblewrap is told: nothing but the system's programs is there, and nothing of it can be written.
const BWRAP: &[&str] = &[
    "--unshare-all",
    "--die-with-parent",
    "--new-session",
    "--ro-bind",
    "/usr",
    "/usr",
    "--symlink",
    "usr/lib",
    "/lib",
    "--symlink",
    "usr/lib64",
    "/lib64",
    "--symlink",
    "usr/bin",
    "/bin",
    "--proc",
    "/proc",
    "--dev",
    "/dev",
    "--tmpfs",
    "/tmp",
];

/// Whether bubblewrap is installed and starts: else why not.
pub fn bubblewrap() -> Result<(), String> {
    if find("bwrap").is_none() {
        return Err("bubblewrap is not installed".into());
    }
    let probe = Program {
        words: vec!["/usr/bin/true".into()],
        folder: "/usr".into(),
        bwrap: true,
        binds: Vec::new(),
        variable: "VANTOREL_FLASH",
        limits: limits(),
    };
    let ran = probe.run(&[], &[], Duration::from_secs(5));
    match ran.ended {
        Ended::Well => Ok(()),
        _ => {
            let said = String::from_utf8_lossy(&ran.err);
            let said = said.lines().next().unwrap_or("it ended").to_string();
            Err(format!("bubblewrap does not start here ({said})"))
        }
    }
}

fn ended(status: ExitStatus) -> Ended {
    match (status.code(), status.signal()) {
        (Some(0), _) => Ended::Well,
        // a shell and bubblewrap say a signal as 128 more
        (Some(code @ 129..=159), _) => Ended::Signal(code - 128),
        (Some(code), _) => Ended::Status(code),
        (None, signal) => Ended::Signal(signal.unwrap_or(0)),
    }
}

/// All that was written to a file, whatever became of its name.
fn whole(file: &mut File) -> io::Result<Vec<u8>> {
    let mut bytes = Vec::new();
    file.rewind()?;
    file.by_ref().take(OUTPUT + 1).read_to_end(&mut bytes)?;
    Ok(bytes)
}
