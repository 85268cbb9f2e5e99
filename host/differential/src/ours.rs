// The functions of crates/host, called so that what they do to lent space is checked at each call.
use dos33::{TrackSectorPair, LIST_PAIRS};

use crate::random::Random;
use crate::report::Report;
use crate::walk;

mod raw {
    extern "C" {
        pub fn dos33_vtoc(
            disk: *const u8,
            disk_len: usize,
            fields: *mut u64,
            fields_len: usize,
        ) -> u8;
        pub fn dos33_catalog(
            disk: *const u8,
            disk_len: usize,
            out: *mut u8,
            out_len: usize,
            length: *mut u64,
        ) -> u8;
        pub fn dos33_lists(
            disk: *const u8,
            disk_len: usize,
            entry: u64,
            out: *mut u8,
            out_len: usize,
            length: *mut u64,
        ) -> u8;
        pub fn dos33_pairs(
            disk: *const u8,
            disk_len: usize,
            track: u8,
            sector: u8,
            out: *mut u8,
            out_len: usize,
            length: *mut u64,
        ) -> u8;
        pub fn dos33_pair_run(
            disk: *const u8,
            disk_len: usize,
            track: u8,
            sector: u8,
            run: *mut dos33::TrackSectorPair,
            run_len: usize,
            length: *mut u64,
        ) -> u8;
        pub fn dos33_file(
            disk: *const u8,
            disk_len: usize,
            entry: u64,
            out: *mut u8,
            out_len: usize,
            length: *mut u64,
        ) -> u8;
        pub fn dos33_fetch(
            disk: *const u8,
            disk_len: usize,
            name: *const u8,
            name_len: usize,
            out: *mut u8,
            out_len: usize,
            length: *mut u64,
        ) -> u8;
        pub fn dos33_encode_sector(
            sector: *const u8,
            sector_len: usize,
            out: *mut u8,
            out_len: usize,
            length: *mut u64,
        ) -> u8;
        pub fn dos33_sector(
            stream: *const u8,
            stream_len: usize,
            volume: u8,
            track: u8,
            sector: u8,
            out: *mut u8,
            out_len: usize,
            length: *mut u64,
        ) -> u8;
        pub fn dos33_nibblize(
            disk: *const u8,
            disk_len: usize,
            out: *mut u8,
            out_len: usize,
            length: *mut u64,
        ) -> u8;
        pub fn dos33_entry_record(
            track: u8,
            sector: u8,
            kind: u8,
            locked: u8,
            name: *const u8,
            name_len: usize,
            count: u16,
            out: *mut u8,
            out_len: usize,
            length: *mut u64,
        ) -> u8;
        pub fn dos33_catalog_page(
            header: *const u8,
            header_len: usize,
            entries: *const u8,
            entries_len: usize,
            out: *mut u8,
            out_len: usize,
            length: *mut u64,
        ) -> u8;
        pub fn dos33_binary_file(
            kind: u8,
            address: u16,
            size: u16,
            data: *const u8,
            data_len: usize,
            out: *mut u8,
            out_len: usize,
            length: *mut u64,
        ) -> u8;
        pub fn dos33_recognize_prologue(stream: *const u8, stream_len: usize) -> u8;
        pub fn dos33_format_from_data(
            data: *const u8,
            data_len: usize,
            fields: *mut u64,
            fields_len: usize,
        ) -> u8;
    }
}

// The number, and the bytes handed over (none under a refusal).
#[derive(Clone, Debug, PartialEq)]
pub struct Answer {
    pub number: u8,
    pub bytes: Vec<u8>,
}

pub struct Ours {
    random: Random,
    spare: Vec<u8>,
}

const LENGTH_BEFORE: u64 = 0x0123_4567_89AB_CDEF;
const FIELD_BEFORE: u64 = 0xFEDC_BA98_7654_3210;

impl Ours {
    pub fn new(seed: u64) -> Ours {
        Ours {
            random: Random::new(seed ^ 0x5EED),
            spare: Vec::new(),
        }
    }

    // One call with so much space: what it gives, or what is wrong with what it left.
    fn once(
        &mut self,
        size: usize,
        f: &dyn Fn(*mut u8, usize, *mut u64) -> u8,
    ) -> Result<Answer, String> {
        let before = self.random.byte();
        self.spare.clear();
        self.spare.resize(size, before);
        let mut length = LENGTH_BEFORE;
        let number = f(self.spare.as_mut_ptr(), size, &mut length);
        if number != 0 {
            if length != LENGTH_BEFORE || self.spare.iter().any(|b| *b != before) {
                return Err(format!("{number} changed what was lent"));
            }
            return Ok(Answer {
                number,
                bytes: Vec::new(),
            });
        }
        if length > size as u64 {
            return Err(format!("{length} bytes handed over in {size}"));
        }
        let length = length as usize;
        if self.spare[length..].iter().any(|b| *b != before) {
            return Err(format!("bytes past {length} changed"));
        }
        Ok(Answer {
            number,
            bytes: self.spare[..length].to_vec(),
        })
    }

    // With much space; now and then also with just enough and with one byte less.
    fn handed(
        &mut self,
        function: &'static str,
        most: usize,
        input: &[u8],
        report: &mut Report,
        f: &dyn Fn(*mut u8, usize, *mut u64) -> u8,
    ) -> Answer {
        let slack = self.random.below(40);
        let answer = match self.once(most + slack, f) {
            Ok(answer) => answer,
            Err(text) => report.difference(function, input, text),
        };
        report.number(function, answer.number);
        if !self.random.one_in(4) {
            return answer;
        }
        let need = answer.bytes.len();
        let mut tries = vec![(need, answer.clone())];
        if need > 0 {
            let short = Answer {
                number: 12,
                bytes: Vec::new(),
            };
            let less = self.random.below(need);
            tries.push((need - 1, short.clone()));
            tries.push((less, short));
        }
        for (size, expected) in tries {
            match self.once(size, f) {
                Ok(again) if again == expected => report.number(function, again.number),
                Ok(again) => report.difference(
                    function,
                    input,
                    format!(
                        "with space for {size} of {need} bytes: {}, not {}",
                        again.number, expected.number
                    ),
                ),
                Err(text) => report.difference(function, input, text),
            }
        }
        answer
    }

    // The same for numbers in elements.
    fn fields(
        &mut self,
        function: &'static str,
        most: usize,
        input: &[u8],
        report: &mut Report,
        f: &dyn Fn(*mut u64, usize) -> u8,
    ) -> (u8, Vec<u64>) {
        let mut first = (0, Vec::new());
        for size in [most + self.random.below(3), most, most - 1] {
            let mut fields = vec![FIELD_BEFORE; size];
            let number = f(fields.as_mut_ptr(), size);
            report.number(function, number);
            let kept = if number == 0 { most } else { 0 };
            if kept > size || fields[kept..].iter().any(|x| *x != FIELD_BEFORE) {
                report.difference(function, input, format!("{number} changed elements"));
            }
            fields.truncate(kept);
            if size >= most {
                first = (number, fields);
            } else if number != if first.0 == 0 { 12 } else { first.0 } {
                report.difference(function, input, format!("{number} with too few elements"));
            }
        }
        first
    }

    pub fn vtoc(&mut self, disk: &[u8], report: &mut Report) -> (u8, Vec<u64>) {
        self.fields("dos33_vtoc", 13, disk, report, &|p, n| unsafe {
            raw::dos33_vtoc(disk.as_ptr(), disk.len(), p, n)
        })
    }

    pub fn catalog(&mut self, disk: &[u8], report: &mut Report) -> Answer {
        self.handed(
            "dos33_catalog",
            560 * 7 * 37,
            disk,
            report,
            &|p, n, l| unsafe { raw::dos33_catalog(disk.as_ptr(), disk.len(), p, n, l) },
        )
    }

    pub fn lists(&mut self, disk: &[u8], entry: u64, report: &mut Report) -> Answer {
        self.handed("dos33_lists", 560 * 2, disk, report, &|p, n, l| unsafe {
            raw::dos33_lists(disk.as_ptr(), disk.len(), entry, p, n, l)
        })
    }

    // Also in a run of structs, which must be the same pairs.
    pub fn pairs(&mut self, disk: &[u8], track: u8, sector: u8, report: &mut Report) -> Answer {
        let answer = self.handed(
            "dos33_pairs",
            2 * LIST_PAIRS,
            disk,
            report,
            &|p, n, l| unsafe {
                raw::dos33_pairs(disk.as_ptr(), disk.len(), track, sector, p, n, l)
            },
        );
        let need = answer.bytes.len() / 2;
        for room in [
            need + self.random.below(40),
            need,
            need.saturating_sub(1),
            self.random.below(LIST_PAIRS + 1),
        ] {
            self.pair_run(disk, (track, sector), room, &answer, report);
        }
        answer
    }

    // Any location, on the disk or not: 1, 3, or what the sector has as a list. image-rider is not asked.
    pub fn pairs_somewhere(&mut self, disk: &[u8], report: &mut Report) {
        let (track, sector) = (self.random.below(38) as u8, self.random.below(18) as u8);
        let answer = self.pairs(disk, track, sector, report);
        let (number, pairs) = match (disk.len(), track, sector) {
            (143_360, 0..=34, 0..=15) => (0, walk::pairs(disk, (track, sector))),
            (143_360, ..) => (3, Vec::new()),
            _ => (1, Vec::new()),
        };
        let bytes = pairs.iter().flat_map(|p| [p.0, p.1]);
        if answer.number != number || !answer.bytes.iter().copied().eq(bytes) {
            let text = format!("{track}/{sector}: {}", answer.number);
            report.difference("dos33_pairs", disk, text);
        }
        report.compared("pairs as bytes and in a run, at any location, by the rule");
    }

    // The run with room for so many pairs: those of `pairs`, or its number, or 12; and what lies past them is as it was.
    fn pair_run(
        &mut self,
        disk: &[u8],
        (track, sector): (u8, u8),
        room: usize,
        pairs: &Answer,
        report: &mut Report,
    ) {
        let before = [self.random.byte(), self.random.byte()];
        let pair = |p: &[u8]| TrackSectorPair {
            track_number: p[0],
            sector_number: p[1],
        };
        let mut run = vec![pair(&before); room];
        let mut length = LENGTH_BEFORE;
        let (d, n, p) = (disk.as_ptr(), disk.len(), run.as_mut_ptr());
        let number = unsafe { raw::dos33_pair_run(d, n, track, sector, p, room, &mut length) };
        report.number("dos33_pair_run", number);
        let mut due: Vec<TrackSectorPair> = pairs.bytes.chunks_exact(2).map(pair).collect();
        let short = due.len() > room;
        let mut expected = (pairs.number, due.len() as u64);
        if pairs.number != 0 || short {
            expected = (if short { 12 } else { pairs.number }, LENGTH_BEFORE);
            due.clear();
        }
        due.resize(room, pair(&before));
        if (number, length) != expected || run != due {
            let text = format!(
                "{track}/{sector}, room {room}: {number}, length {length}, not {expected:?}"
            );
            report.difference("dos33_pair_run", disk, text);
        }
    }

    pub fn file(&mut self, disk: &[u8], entry: u64, report: &mut Report) -> Answer {
        self.handed("dos33_file", 65_536, disk, report, &|p, n, l| unsafe {
            raw::dos33_file(disk.as_ptr(), disk.len(), entry, p, n, l)
        })
    }

    pub fn fetch(&mut self, disk: &[u8], name: &[u8], report: &mut Report) -> Answer {
        self.handed("dos33_fetch", 65_536, disk, report, &|p, n, l| unsafe {
            raw::dos33_fetch(
                disk.as_ptr(),
                disk.len(),
                name.as_ptr(),
                name.len(),
                p,
                n,
                l,
            )
        })
    }

    pub fn encode_sector(&mut self, sector: &[u8], report: &mut Report) -> Answer {
        self.handed(
            "dos33_encode_sector",
            343,
            sector,
            report,
            &|p, n, l| unsafe { raw::dos33_encode_sector(sector.as_ptr(), sector.len(), p, n, l) },
        )
    }

    pub fn sector(&mut self, stream: &[u8], key: (u8, u8, u8), report: &mut Report) -> Answer {
        self.handed("dos33_sector", 256, stream, report, &|p, n, l| unsafe {
            raw::dos33_sector(stream.as_ptr(), stream.len(), key.0, key.1, key.2, p, n, l)
        })
    }

    pub fn nibblize(&mut self, disk: &[u8], report: &mut Report) -> Answer {
        self.handed("dos33_nibblize", 232_960, disk, report, &|p, n, l| unsafe {
            raw::dos33_nibblize(disk.as_ptr(), disk.len(), p, n, l)
        })
    }

    #[allow(clippy::too_many_arguments)]
    pub fn entry_record(
        &mut self,
        track: u8,
        sector: u8,
        kind: u8,
        locked: u8,
        name: &[u8],
        count: u16,
        report: &mut Report,
    ) -> Answer {
        self.handed("dos33_entry_record", 35, name, report, &|p, n, l| unsafe {
            raw::dos33_entry_record(
                track,
                sector,
                kind,
                locked,
                name.as_ptr(),
                name.len(),
                count,
                p,
                n,
                l,
            )
        })
    }

    pub fn catalog_page(&mut self, header: &[u8], entries: &[u8], report: &mut Report) -> Answer {
        self.handed(
            "dos33_catalog_page",
            256,
            entries,
            report,
            &|p, n, l| unsafe {
                raw::dos33_catalog_page(
                    header.as_ptr(),
                    header.len(),
                    entries.as_ptr(),
                    entries.len(),
                    p,
                    n,
                    l,
                )
            },
        )
    }

    pub fn binary_file(
        &mut self,
        kind: u8,
        address: u16,
        size: u16,
        data: &[u8],
        report: &mut Report,
    ) -> Answer {
        self.handed(
            "dos33_binary_file",
            data.len() + 4,
            data,
            report,
            &|p, n, l| unsafe {
                raw::dos33_binary_file(kind, address, size, data.as_ptr(), data.len(), p, n, l)
            },
        )
    }

    pub fn recognize_prologue(&mut self, stream: &[u8]) -> u8 {
        unsafe { raw::dos33_recognize_prologue(stream.as_ptr(), stream.len()) }
    }

    pub fn format_from_data(&mut self, data: &[u8], report: &mut Report) -> (u8, Vec<u64>) {
        self.fields("dos33_format_from_data", 1, data, report, &|p, n| unsafe {
            raw::dos33_format_from_data(data.as_ptr(), data.len(), p, n)
        })
    }
}
