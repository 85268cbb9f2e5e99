// image-rider's load in a child process, since it may run for ever.
use std::io::{Read, Write};
use std::process::{Child, ChildStdin, Command, Stdio};
use std::sync::mpsc::{channel, Receiver, RecvTimeoutError};
use std::time::Duration;

use crate::config::Config;
use crate::disk_format::apple::disk::{
    apple_disk_parser, AppleDiskData, AppleDiskGuess, Encoding, Format,
};
use crate::panics::caught;

pub const ARGUMENT: &str = "--image-rider";

// The memory a worker may have; a ring of lists takes all it gets.
const MEMORY: u64 = 1 << 30;

extern "C" {
    fn setrlimit(resource: i32, limits: *const [u64; 2]) -> i32;
    fn prctl(option: i32, value: u64) -> i32;
}
const RLIMIT_AS: i32 = 9;
const RLIMIT_CORE: i32 = 4;
const PR_SET_PDEATHSIG: i32 = 1;
const SIGKILL: u64 = 9;

// What image-rider made of a disk.
#[derive(Default)]
pub struct Load {
    // The ten numbers of the VTOC that both have.
    pub vtoc: Vec<u64>,
    // The entries in our form, 37 bytes each.
    pub entries: Vec<u8>,
    // The bytes of each entry, and its lists: link and pairs.
    pub files: Vec<Vec<u8>>,
    pub lists: Vec<Vec<Vec<u8>>>,
    // The bytes of each name.
    pub names: Vec<(Vec<u8>, Vec<u8>)>,
}

pub enum Theirs {
    Loaded(Load),
    Failed(String),
    Panicked(String),
    // It did not return in time, or ran out of memory.
    Late,
}

pub struct Worker {
    child: Child,
    input: ChildStdin,
    answers: Receiver<Vec<u8>>,
}

impl Worker {
    pub fn start() -> Worker {
        let program = std::env::current_exe().unwrap();
        let mut child = Command::new(program)
            .arg(ARGUMENT)
            .stdin(Stdio::piped())
            .stdout(Stdio::piped())
            .stderr(Stdio::null())
            .spawn()
            .unwrap();
        let input = child.stdin.take().unwrap();
        let mut output = child.stdout.take().unwrap();
        let (send, answers) = channel();
        std::thread::spawn(move || {
            while let Some(answer) = message(&mut output) {
                if send.send(answer).is_err() {
                    return;
                }
            }
        });
        Worker {
            child,
            input,
            answers,
        }
    }

    fn again(&mut self) {
        let _ = self.child.kill();
        let _ = self.child.wait();
        *self = Worker::start();
    }

    pub fn load(&mut self, disk: &[u8], limit: Duration) -> Theirs {
        let sent = send(&mut self.input, disk);
        let answer = if sent.is_ok() {
            self.answers.recv_timeout(limit)
        } else {
            Err(RecvTimeoutError::Disconnected)
        };
        match answer {
            Ok(answer) => understood(&answer),
            Err(_) => {
                self.again();
                Theirs::Late
            }
        }
    }

    pub fn stop(mut self) {
        let _ = self.child.kill();
        let _ = self.child.wait();
    }
}

fn message(from: &mut impl Read) -> Option<Vec<u8>> {
    let mut length = [0; 4];
    from.read_exact(&mut length).ok()?;
    let mut bytes = vec![0; u32::from_le_bytes(length) as usize];
    from.read_exact(&mut bytes).ok()?;
    Some(bytes)
}

fn send(to: &mut impl Write, bytes: &[u8]) -> std::io::Result<()> {
    to.write_all(&(bytes.len() as u32).to_le_bytes())?;
    to.write_all(bytes)?;
    to.flush()
}

// The child: a disk in, an answer out.
pub fn serve(config: &Config) {
    unsafe {
        // A ring does not outlive the program.
        prctl(PR_SET_PDEATHSIG, SIGKILL);
        setrlimit(RLIMIT_AS, &[MEMORY, MEMORY]);
        setrlimit(RLIMIT_CORE, &[0, 0]);
    }
    let mut input = std::io::stdin().lock();
    let mut output = std::io::stdout().lock();
    while let Some(disk) = message(&mut input) {
        let answer = caught(|| answer(&disk, config))
            .unwrap_or_else(|text| [&[2], text.as_bytes()].concat());
        if send(&mut output, &answer).is_err() {
            return;
        }
    }
}

fn part(to: &mut Vec<u8>, bytes: &[u8]) {
    to.extend((bytes.len() as u32).to_le_bytes());
    to.extend(bytes);
}

fn answer(bytes: &[u8], config: &Config) -> Vec<u8> {
    let guess = AppleDiskGuess::new(Encoding::Plain, Format::DOS33(143_360), bytes);
    let disk = match apple_disk_parser(&guess, config) {
        Ok(disk) => disk,
        Err(e) => return [&[1], e.to_string().as_bytes()].concat(),
    };
    let AppleDiskData::DOS(disk) = disk.data else {
        return [&[1], "no DOS disk".as_bytes()].concat();
    };
    let mut to = vec![0];
    let v = &disk.volume_table_of_contents;
    part(
        &mut to,
        &[
            v.track_number_of_first_catalog_sector,
            v.sector_number_of_first_catalog_sector,
            v.release_number_of_dos,
            v.diskette_volume_number,
            v.maximum_number_of_track_sector_pairs,
            v.last_track_where_sectors_were_allocated,
            v.direction_of_track_allocation as u8,
            v.number_of_tracks_per_diskette,
            v.number_of_sectors_per_track,
            v.number_of_bytes_per_sector as u8,
            (v.number_of_bytes_per_sector >> 8) as u8,
        ],
    );
    let mut entries = Vec::new();
    for e in &disk.catalog.file_entries {
        let name = e.filename().unwrap().into_bytes();
        entries.extend([
            e.track_of_first_track_sector_list_sector,
            e.sector_of_first_track_sector_list_sector,
            e.file_type as u8,
            e.locked as u8,
            name.len() as u8,
        ]);
        entries.extend(&name);
        entries.resize(entries.len() + 30 - name.len(), 0);
        entries.extend(e.file_length_in_sectors.to_le_bytes());
    }
    part(&mut to, &entries);
    for e in &disk.catalog.file_entries {
        let lists = e.build_file(&disk.tracks).unwrap();
        part(
            &mut to,
            &e.get_data(&disk.tracks, &lists).unwrap_or_default(),
        );
        part(&mut to, &vec![0; lists.len()]);
        for list in &lists {
            let mut bytes = vec![
                list.track_number_of_next_sector.unwrap_or(0),
                list.sector_number_of_next_sector.unwrap_or(0),
            ];
            for pair in &list.track_sector_pairs {
                bytes.extend([pair.track_number, pair.sector_number]);
            }
            part(&mut to, &bytes);
        }
    }
    for (name, file) in &disk.files {
        part(&mut to, name.as_bytes());
        part(&mut to, &file.data);
    }
    to
}

fn understood(answer: &[u8]) -> Theirs {
    let text = || String::from_utf8_lossy(&answer[1..]).into_owned();
    match answer[0] {
        1 => return Theirs::Failed(text()),
        2 => return Theirs::Panicked(text()),
        _ => {}
    }
    let mut at = 1;
    let mut next = || {
        let n = u32::from_le_bytes(answer[at..at + 4].try_into().unwrap()) as usize;
        at += 4 + n;
        (at, answer[at - n..at].to_vec())
    };
    let mut load = Load::default();
    let v = next().1;
    load.vtoc = v[..9].iter().map(|b| *b as u64).collect();
    load.vtoc.push(v[9] as u64 + 256 * v[10] as u64);
    let (mut end, entries) = next();
    for _ in 0..entries.len() / 37 {
        load.files.push(next().1);
        let (after, lists) = next();
        end = after;
        let mut all = Vec::new();
        for _ in 0..lists.len() {
            let (after, list) = next();
            end = after;
            all.push(list);
        }
        load.lists.push(all);
    }
    load.entries = entries;
    while end < answer.len() {
        let name = next().1;
        let (after, data) = next();
        end = after;
        load.names.push((name, data));
    }
    Theirs::Loaded(load)
}
