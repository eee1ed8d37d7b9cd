//! The example programs `cache`, `client` and `routes`, run.
#![cfg(feature = "std")]

mod common;
mod peers;

use peers::*;
use rtr_wire::*;
use std::io::{BufRead, BufReader, Read, Write};
use std::path::{Path, PathBuf};
use std::process::{Child, Command, Output, Stdio};
use std::sync::mpsc::{channel, Receiver};
use std::time::Instant;

/// An example program, which `cargo test` builds beside this test (`--test` doesn't rebuild it).
fn program(name: &str) -> Command {
    let mut path: PathBuf = std::env::current_exe().unwrap();
    path.pop();
    path.pop();
    Command::new(path.join("examples").join(name))
}

/// The lines that a program prints, as they come.
struct Lines(Receiver<String>);

impl Lines {
    fn of(input: impl Read + Send + 'static) -> Lines {
        let (sender, receiver) = channel();
        std::thread::spawn(move || {
            let lines = BufReader::new(input).lines().map_while(Result::ok);
            lines.for_each(|line| drop(sender.send(line)));
        });
        Lines(receiver)
    }

    fn next(&self) -> String {
        self.0.recv_timeout(PATIENCE).expect("it says something")
    }
}

/// The cache while it runs.
struct Cache {
    child: Child,
    lines: Lines,
    file: PathBuf,
}

impl Cache {
    fn start(file: PathBuf) -> Cache {
        Cache::run(program("cache"), file)
    }

    fn run(mut command: Command, file: PathBuf) -> Cache {
        command.arg(&file).args(["--listen", "127.0.0.1:0"]);
        let mut child = command.stderr(Stdio::piped()).spawn().unwrap();
        let lines = Lines::of(child.stderr.take().unwrap());
        Cache { child, lines, file }
    }

    /// The next line, without the time before it.
    fn line(&self) -> String {
        let today = || {
            let date = Command::new("date").args(["-u", "+%Y-%m-%dT"]).output();
            String::from_utf8(date.unwrap().stdout).unwrap()
        };
        let before = today();
        let line = self.lines.next();
        let (time, said) = line.split_once(' ').expect("there is a time");
        let days = [before, today()];
        let of_a_day = days
            .iter()
            .find_map(|day| time.strip_prefix(day.trim_end()));
        let time = of_a_day
            .expect("it is of today")
            .split(|byte| ":Z".contains(byte));
        assert!(time
            .take(3)
            .all(|number| number.len() == 2 && number.parse::<u8>().is_ok()));
        said.to_string()
    }

    fn kept(file: &Path) -> PathBuf {
        let mut kept = file.as_os_str().to_os_string();
        kept.push(".kept");
        kept.into()
    }

    /// Replaces the data in the file.
    fn replace(&self, bytes: &[u8]) {
        let new = self.file.with_extension("new");
        std::fs::write(&new, bytes).unwrap();
        std::fs::rename(&new, &self.file).unwrap();
    }

    /// Sends a signal, and returns the exit status.
    fn end(mut self, signal: &str) -> Option<i32> {
        self.ends(signal)
    }

    fn ends(&mut self, signal: &str) -> Option<i32> {
        let id = self.child.id().to_string();
        let sent = Command::new("kill").args(["-s", signal, &id]).status();
        assert!(sent.unwrap().success());
        self.child.wait().unwrap().code()
    }
}

impl Drop for Cache {
    fn drop(&mut self) {
        let _ = self.child.kill();
        let _ = self.child.wait();
        let _ = std::fs::remove_file(&self.file);
        let _ = std::fs::remove_file(Cache::kept(&self.file));
    }
}

/// The cache refuses the newest of too many clients, and still loads new data, even of the same
/// size and time as before.
#[test]
fn few_descriptors() {
    let file = std::env::temp_dir().join(format!("rtr-cache-3-{}", std::process::id()));
    std::fs::write(&file, data(1).as_bytes()).unwrap();
    let mut limited = Command::new("sh");
    limited.args(["-c", "ulimit -n 40; exec \"$0\" \"$@\""]);
    limited.arg(program("cache").get_program());
    let cache = Cache::run(limited, file);
    let listening = cache.line();
    let address = listening.strip_prefix("listening on ").unwrap();
    let address = address.parse().unwrap();
    cache.line();
    let mut clients: Vec<Peer> = (0..60).map(|_| Peer::connect(address)).collect();
    let full = Some((ErrorCode::INTERNAL_ERROR, 2));
    let mut newest = clients.pop().unwrap();
    let start = Instant::now();
    while !newest.has_come() {
        assert!(start.elapsed() < PATIENCE, "the newest client waits");
        // As routers do, each client leaves once it has read its report.
        clients.retain_mut(|client| !client.has_come() || client.report() != full);
        std::thread::sleep(milliseconds(10));
    }
    assert_eq!(newest.report(), full);
    // The same size and time.
    let told = |serial| format!("serial {serial}: {} payloads", data(1).len());
    let old = cache.file.with_extension("old");
    std::fs::copy(&cache.file, &old).unwrap();
    for serial in [6, 11] {
        assert_eq!(data(serial).as_bytes().len(), data(1).as_bytes().len());
        std::fs::write(&cache.file, data(serial).as_bytes()).unwrap();
        let touched = Command::new("touch")
            .arg("-r")
            .args([&old, &cache.file])
            .status();
        assert!(touched.unwrap().success());
        let mut line = cache.line();
        while !line.ends_with(&told(serial)) {
            line = cache.line();
        }
    }
    std::fs::remove_file(old).unwrap();
    clients[0].send(&reset_query(2));
    assert_eq!(clients[0].response(), data(11).as_bytes());
    assert_eq!(cache.end("TERM"), Some(0));
}

/// A client that takes the last descriptor isn't served, but gets a report at once.
#[test]
fn the_last_descriptor() {
    let file = std::env::temp_dir().join(format!("rtr-cache-7-{}", std::process::id()));
    std::fs::write(&file, data(1).as_bytes()).unwrap();
    let mut limited = Command::new("sh");
    limited.args(["-c", "ulimit -n 40; exec \"$0\" \"$@\""]);
    limited.arg(program("cache").get_program());
    let cache = Cache::run(limited, file);
    let listening = cache.line();
    let address = listening.strip_prefix("listening on ").unwrap();
    let address = address.parse().unwrap();
    cache.line();
    let mut clients = Vec::new();
    loop {
        let mut client = Peer::connect(address);
        client.send(&reset_query(2));
        match client.unit() {
            Some(Unit::CacheResponse(_)) => clients.push((client.sequence(), client)),
            Some(Unit::ErrorReport(report)) => break assert_eq!(report.code.0, 1),
            other => panic!("{} are served, and then {other:?}", clients.len()),
        }
    }
    assert!(!clients.is_empty());
    assert_eq!(cache.end("TERM"), Some(0));
}

/// A restarted cache answers clients that have earlier data with changes. It doesn't start if its
/// saved state was altered.
#[test]
fn restarts() {
    let file = std::env::temp_dir().join(format!("rtr-cache-4-{}", std::process::id()));
    std::fs::write(&file, data(1).as_bytes()).unwrap();
    let mut first = Cache::start(file.clone());
    (0..2).for_each(|_| drop(first.line()));
    first.replace(data(2).as_bytes());
    assert!(first.line().contains("serial 2: "));
    assert_eq!(first.ends("TERM"), Some(0));
    let keep = |to: &str| std::fs::copy(Cache::kept(&file), file.with_extension(to)).unwrap();
    keep("whole");
    drop(first);
    for torn in [false, true] {
        std::fs::write(&file, data(3).as_bytes()).unwrap();
        let mut kept = std::fs::read(file.with_extension("whole")).unwrap();
        let last = kept.len() - 1;
        kept[last] ^= u8::from(torn);
        std::fs::write(Cache::kept(&file), kept).unwrap();
        let name = Cache::kept(&file);
        let mut cache = Cache::start(file.clone());
        if torn {
            let text = format!(
                "{}: the saved file is damaged: the data need a new session",
                name.display()
            );
            assert_eq!(cache.line(), text);
            assert_eq!(cache.child.wait().unwrap().code(), Some(1));
            assert!(name.exists());
            continue;
        }
        let said = format!("session {SESSION} serial 2: {} payloads", data(2).len());
        assert_eq!(cache.line(), format!("{}: {said}", name.display()));
        let listening = cache.line();
        let address = listening.strip_prefix("listening on ").unwrap();
        assert!(cache.line().contains("serial 3: "));
        let mut client = Peer::connect(address.parse().unwrap());
        client.send(&serial_query(2, SESSION, 1));
        let changes = data(1).delta_to(&data(3)).unwrap();
        assert_eq!(client.response(), changes.as_bytes());
    }
    std::fs::remove_file(file.with_extension("whole")).unwrap();
}

/// With `--refuse` the cache sends a report instead of a cache reset.
#[test]
fn refuses() {
    let file = std::env::temp_dir().join(format!("rtr-cache-5-{}", std::process::id()));
    std::fs::write(&file, data(1).as_bytes()).unwrap();
    let mut command = program("cache");
    command.arg("--refuse");
    let cache = Cache::run(command, file);
    let listening = cache.line();
    let address = listening.strip_prefix("listening on ").unwrap();
    cache.line();
    let mut client = Peer::connect(address.parse().unwrap());
    client.send(&serial_query(1, 1, 1));
    assert_eq!(client.report(), Some((ErrorCode::CORRUPT_DATA, 1)));
}

fn client(words: &[&str]) -> Output {
    program("client").args(words).output().unwrap()
}

/// The lines of all units.
fn lines(data: &Data, line: fn(&UnitRef) -> Option<String>) -> String {
    let lines = data.units().map(|unit| line(&unit).unwrap() + "\n");
    lines.collect()
}

#[test]
fn cache_and_client() {
    let file = std::env::temp_dir().join(format!("rtr-cache-{}", std::process::id()));
    let cache = Cache::start(file.clone());
    let listening = cache.line();
    let address = listening.strip_prefix("listening on ").unwrap();
    let name = file.display();
    // There is no file yet, and then one that is refused.
    assert!(cache.line().starts_with(&format!("{name}: ")));
    let none = client(&[address, "--once"]);
    assert_eq!(none.status.code(), Some(1));
    let text = format!("{address}: the cache reports an error: No Data Available");
    assert!(String::from_utf8(none.stderr).unwrap().starts_with(&text));
    cache.replace(&data(1).as_bytes()[..30]);
    assert_eq!(
        cache.line(),
        format!("{name}: unexpected end of input, at byte 20")
    );
    // Data in any order, after a cache response that was cut off.
    let prefixes = [prefix(1, 9), prefix(1, 8)].concat();
    let end = Data::new(2, SESSION, 1, None).unwrap().into_bytes();
    let response = bytes_of(&Unit::CacheResponse(CacheResponse {
        version: 2,
        session: SESSION,
    }));
    let answer = [&response[..], &prefixes, &end].concat();
    cache.replace(&[&response[..], &prefixes[..20], &answer].concat());
    let taken = format!("{name}: session {SESSION} serial 1: 2 payloads");
    assert_eq!(cache.line(), taken);
    let left_out = format!("{name}: left out: an answer without an end of data");
    assert_eq!(cache.line(), left_out);
    let got = client(&[address, "--once"]);
    let wanted = "+ IPv4 prefix 10.0.8.0/24-24 AS65551\n+ IPv4 prefix 10.0.9.0/24-24 AS65551\n";
    assert_eq!(String::from_utf8(got.stdout).unwrap(), wanted);
    let said = format!("session {SESSION} serial 1 version 1: 2 payloads\n");
    assert_eq!(String::from_utf8(got.stderr).unwrap(), said);
    assert_eq!(got.status.code(), Some(0));
    // New data.
    cache.replace(data(2).as_bytes());
    assert!(cache
        .line()
        .ends_with(&format!("serial 2: {} payloads", data(2).len())));
    let got = client(&[address, "--json", "--version", "2", "--once"]);
    assert_eq!(
        String::from_utf8(got.stdout).unwrap(),
        lines(&data(2), change_json)
    );
    let got = client(&[address, "--version", "0", "--once"]);
    let of_0 = data(2).for_version(0).unwrap();
    assert_eq!(
        String::from_utf8(got.stdout).unwrap(),
        lines(&of_0, change_line)
    );
    // Other data need another serial number.
    cache.replace(data(3).numbered(SESSION, 2).as_bytes());
    let refused = "the serial number isn't later than that of the present data: new 2, present 2";
    assert_eq!(cache.line(), format!("{name}: {refused}"));
    assert_eq!(cache.end("TERM"), Some(0));
    let none = client(&[address, "--once"]);
    assert_eq!(none.status.code(), Some(1));
}

/// With several caches, nothing listens at the first address.
#[test]
fn by_preference() {
    let file = std::env::temp_dir().join(format!("rtr-cache-6-{}", std::process::id()));
    std::fs::write(&file, data(1).as_bytes()).unwrap();
    let cache = Cache::start(file);
    let listening = cache.line();
    cache.line();
    let address = listening.strip_prefix("listening on ").unwrap();
    let absent = ["--prefer", "127.0.0.1:1", "--once", "--version", "2"];
    let got = client(&[&absent[..], &["--prefer", address]].concat());
    let wanted = lines(&data(1), change_line);
    assert_eq!(String::from_utf8(got.stdout).unwrap(), wanted);
    assert!(got.stderr.starts_with(b"127.0.0.1:1: "));
    assert_eq!(got.status.code(), Some(0));
    let got = client(&[&absent[..], &["--prefer", "127.0.0.2:1"]].concat());
    assert_eq!((got.status.code(), got.stdout), (Some(1), Vec::new()));
    let many: Vec<_> = (1..=17).map(|host| format!("127.0.0.{host}:1")).collect();
    let too_many = many
        .iter()
        .flat_map(|address| ["--prefer", address.as_str()]);
    let got = client(&too_many.collect::<Vec<_>>());
    assert_eq!(got.status.code(), Some(2));
    assert_eq!(cache.end("TERM"), Some(0));
}

/// A client that follows prints each change; SIGINT ends a cache, too.
#[test]
fn changes_as_they_come() {
    let file = std::env::temp_dir().join(format!("rtr-cache-2-{}", std::process::id()));
    std::fs::write(&file, data(1).as_bytes()).unwrap();
    let cache = Cache::start(file);
    let listening = cache.line();
    cache.line();
    let address = listening.strip_prefix("listening on ").unwrap();
    let mut command = program("client");
    command
        .args([address, "--version", "2"])
        .stdout(Stdio::piped());
    let mut running = command.stderr(Stdio::null()).spawn().unwrap();
    let printed = Lines::of(running.stdout.take().unwrap());
    for unit in data(1).units() {
        assert_eq!(printed.next(), change_line(&unit).unwrap());
    }
    cache.replace(data(2).as_bytes());
    for unit in data(1).delta_to(&data(2)).unwrap().units() {
        assert_eq!(printed.next(), change_line(&unit).unwrap());
    }
    let id = running.id().to_string();
    let sent = Command::new("kill").args(["-s", "TERM", &id]).status();
    assert!(sent.unwrap().success());
    assert_eq!(running.wait().unwrap().code(), Some(0));
    assert_eq!(cache.end("INT"), Some(0));
}

#[test]
fn arguments() {
    let rows: [&[&str]; 9] = [
        &[],
        &["--once"],
        &["--prefer"],
        &["--prefer", "127.0.0.1:1", "127.0.0.1:1"],
        &["127.0.0.1:1", "--prefer", "127.0.0.1:1"],
        &["127.0.0.1:1", "--version", "3"],
        &["127.0.0.1:1", "--version"],
        &["127.0.0.1:1", "other"],
        &["--help"],
    ];
    for words in rows {
        let got = client(words);
        assert_eq!(got.status.code(), Some(2), "{words:?}");
        assert!(got.stderr.starts_with(b"usage: client (HOST:PORT"));
    }
    for words in [
        &[][..],
        &["a", "b"],
        &["a", "--listen"],
        &["--help"],
        &["-a"],
        &["a", "--max-clients"],
        &["a", "--max-clients", "0"],
        &["a", "--max-clients", "1x"],
    ] {
        let got = program("cache").args(words).output().unwrap();
        assert_eq!(got.status.code(), Some(2), "{words:?}");
        assert!(got.stderr.starts_with(b"usage: cache FILE"));
    }
    let busy = std::net::TcpListener::bind("127.0.0.1:0").unwrap();
    let address = busy.local_addr().unwrap().to_string();
    let got = program("cache")
        .args(["none", "--listen", &address])
        .output()
        .unwrap();
    assert_eq!(got.status.code(), Some(1));
}

/// Returns the output, the errors and the status of the example `routes` with a recording.
fn routes(recording: &[u8]) -> (String, String, Option<i32>) {
    let mut command = program("routes");
    command.stdin(Stdio::piped()).stdout(Stdio::piped());
    let mut child = command.stderr(Stdio::piped()).spawn().unwrap();
    let mut input = child.stdin.take().unwrap();
    input.write_all(recording).unwrap();
    drop(input);
    let output = child.wait_with_output().unwrap();
    let text = |bytes| String::from_utf8(bytes).unwrap();
    (
        text(output.stdout),
        text(output.stderr),
        output.status.code(),
    )
}

/// The example with the recording of `docs/OPERATORS.md`, and with refused inputs.
#[test]
fn routes_by_recordings() {
    let loads = common::loads();
    let recording = |name| loads.iter().find(|load| load.name == name).unwrap();
    let recorded = recording("the recording of docs/OPERATORS.md").recording();
    let printed = "192.0.2.0/24 AS65551 invalid\n  \
                   192.0.2.0/24-24 AS64496: another AS\n\
                   192.0.2.0/27 AS65551 invalid\n  \
                   192.0.2.0/24-24 AS64496: another AS\n\
                   203.0.113.0/24 AS65551 invalid\n  \
                   203.0.113.0/24-24 AS64500: another AS\n";
    assert_eq!(
        routes(&recorded),
        (printed.to_string(), String::new(), Some(0))
    );
    let cut = recording("an answer that the next cache response cuts off").recording();
    let (_, said, status) = routes(&cut);
    let left_out = "routes: left out: an answer without an end of data\n";
    assert_eq!((said.as_str(), status), (left_out, Some(0)));
    let (printed, said, status) = routes(&[]);
    let refused = "routes: unexpected end of input, at byte 0\n";
    assert_eq!(
        (printed.as_str(), said.as_str(), status),
        ("", refused, Some(1))
    );
}
