// Percent used (document 02, Req 04): every number of used sectors, of both editions.
mod common;
use common::{at_of, disk_of, forms, mark};
use dos33::*;

// The numbers that are never more than half a percent from 100 times used / total.
fn near(total: u16, used: u16) -> Vec<u8> {
    let (total, used) = (u32::from(total), u32::from(used));
    (0..=100u8)
        .filter(|p| (200 * used).abs_diff(2 * total * u32::from(*p)) <= total)
        .collect()
}

// The map of a disk whose first `used` sectors are used and all others free. The bits that are not counted
// are set.
fn set_map(d: &mut [u8], per: usize, used: u16) {
    let map = at_of(per, 17, 0) + 56;
    d[map..map + 4 * 35].fill(0xFF);
    for k in 0..usize::from(used) {
        mark(d, k / per, k % per, false);
    }
}

// What VTOC call and survey show: free, used and percent used, the same in both.
fn shown(d: &Disk<'_>) -> (u16, u16, u8) {
    let (v, s) = (d.vtoc().unwrap(), d.survey().unwrap());
    let numbers = (v.free, v.used, v.percent_used);
    assert_eq!(numbers, (s.free, s.used, s.percent_used));
    numbers
}

#[test]
fn every_number() {
    for per in [16, 13] {
        let total = 35 * per as u16;
        let mut d = disk_of(per);
        let mut halves = vec![];
        for used in 0..=total {
            set_map(&mut d, per, used);
            let (free, counted, percent) = shown(&Disk::flat(&d));
            assert_eq!((free, counted), (total - used, used));
            let near = near(total, used);
            assert!(near.contains(&percent), "{used} of {total}: {percent}");
            if near.len() > 1 {
                assert_eq!(percent % 2, 0, "{used} of {total}: {percent}");
                halves.push(used);
            }
        }
        let due: Vec<u16> = (14..=560).step_by(28).collect();
        assert_eq!(halves, if per == 16 { due } else { vec![] });
    }
}

#[test]
fn the_halves_and_beside_them() {
    let mut d = disk_of(16);
    let due = [
        (13, 2),
        (14, 2),
        (15, 3),
        (41, 7),
        (42, 8),
        (43, 8),
        (69, 12),
        (70, 12),
        (71, 13),
        (98, 18),
        (546, 98),
        (560, 100),
    ];
    for (used, percent) in due {
        set_map(&mut d, 16, used);
        for form in forms(&d) {
            assert_eq!(shown(&form), (560 - used, used, percent));
        }
    }
}
