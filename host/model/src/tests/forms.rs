//! Sheets with an identity: Change 6 of paper 02.

use super::sheet;
use crate::sheet::{read, to_new, to_old, write, LinearityPoint, LONGEST_NEW, LONGEST_OLD, NEW, OLD, SCRATCH};
use crate::{bench, Contents, Device, Figures, Identity, Refusal, Result};

const FILL: u8 = 0xa5;
const MOST: Identity = Identity { serial: 4_294_967_295, day: 65_535 };

/// Behind the identity, the old sheet whole: its count 4 too.
fn with_identity(serial: i64, day: i64, old: &[u8]) -> Vec<u8> {
    [&[2], &serial.to_le_bytes()[..], &day.to_le_bytes(), old].concat()
}

fn standard() -> Vec<u8> {
    sheet(&Figures::standard())
}

/// Five and seven points.
fn longest() -> Vec<u8> {
    let mut f = Figures { ctn: 5, cln: 7, ..Figures::standard() };
    for i in 0..7 {
        f.linearity[i] = LinearityPoint { clx: i as i64, clk: 0 };
    }
    for i in 0..5 {
        f.temperature[i].ct = i as i64;
    }
    sheet(&f)
}

/// What a move to the new form gives, and both buffers after it.
fn moved(sheet: &[u8], id: Identity, room: usize, scratch: usize) -> (Result<usize>, Vec<u8>, Vec<u8>) {
    let (mut out, mut scratch) = (vec![FILL; room], vec![FILL; scratch]);
    (to_new(sheet, id, &mut out, &mut scratch), out, scratch)
}

/// The same of a move back.
fn moved_back(sheet: &[u8], room: usize, scratch: usize) -> (Result<(usize, Identity)>, Vec<u8>, Vec<u8>) {
    let (mut out, mut scratch) = (vec![FILL; room], vec![FILL; scratch]);
    (to_old(sheet, &mut out, &mut scratch), out, scratch)
}

fn filled(bytes: &[u8], room: usize) -> Vec<u8> {
    let mut all = bytes.to_vec();
    all.resize(room, FILL);
    all
}

/// A move to the new form is refused so, and both buffers stay.
fn refuses_to_new(sheet: &[u8], serial: i64, day: i64, [room, scratch]: [usize; 2], refusal: Refusal) {
    let due = (Err(refusal), filled(&[], room), filled(&[], scratch));
    assert_eq!(moved(sheet, Identity { serial, day }, room, scratch), due);
}

/// The same of a move back.
fn refuses_to_old(sheet: &[u8], [room, scratch]: [usize; 2], refusal: Refusal) {
    let due = (Err(refusal), filled(&[], room), filled(&[], scratch));
    assert_eq!(moved_back(sheet, room, scratch), due);
}

#[test]
fn both_forms_hold_the_same_figures() {
    let old = standard();
    assert_eq!([old.len(), longest().len(), LONGEST_OLD, LONGEST_NEW], [173, 325, 325, 342]);
    let figures = Figures::standard();
    assert_eq!(read(&old), Ok(Contents { form: OLD, identity: Identity::default(), figures }));
    for (serial, day) in [(0, 0), (1, 0), (0, 1), (4_294_967_295, 65_535)] {
        let new = with_identity(serial, day, &old);
        assert_eq!(new.len(), 190);
        assert_eq!(read(&new), Ok(Contents { form: NEW, identity: Identity { serial, day }, figures }));
        // The whole record is the same: the identity is not kept.
        assert_eq!(Device::new(&new, 52).unwrap(), Device::new(&old, 52).unwrap());
    }
    // The station before the sheet, of this form too.
    assert_eq!(Device::new(&with_identity(-1, 0, &old), 0), Err(Refusal::Station));
}

#[test]
fn first_counts() {
    let old = standard();
    assert_eq!(read(&[]), Err(Refusal::ShortSheet));
    for count in (0..=u8::MAX).filter(|count| ![OLD, NEW].contains(count)) {
        let mut sheet = with_identity(0, 0, &old);
        sheet[0] = count;
        assert_eq!(read(&sheet), Err(Refusal::WrongCount), "{count}");
        // At its first count, and before what is missing behind it.
        assert_eq!(read(&[count]), Err(Refusal::WrongCount), "{count}");
    }
    assert_eq!([read(&[OLD]), read(&[NEW])], [Err(Refusal::ShortSheet); 2]);
}

#[test]
fn an_identity_is_judged_in_its_place() {
    let judged = |serial, day, behind: &[u8]| read(&with_identity(serial, day, behind)).map(|c| c.identity);
    let old = standard();
    assert_eq!(judged(4_294_967_295, 65_535, &old), Ok(MOST));
    for serial in [-1, 4_294_967_296, i64::MIN, i64::MAX] {
        assert_eq!(judged(serial, 0, &old), Err(Refusal::Figure));
        // Serial 3 comes before the day that is missing.
        assert_eq!(read(&with_identity(serial, 0, &[])[..9]), Err(Refusal::Figure));
        assert_eq!(read(&with_identity(serial, 0, &[])[..8]), Err(Refusal::ShortSheet));
    }
    for day in [-1, 65_536, i64::MIN, i64::MAX] {
        assert_eq!(judged(0, day, &old), Err(Refusal::Figure));
        // And the day's before the count behind it, which is missing or wrong.
        assert_eq!([judged(0, day, &[]), judged(0, day, &[2])], [Err(Refusal::Figure); 2]);
    }
    // 16 bytes, then 17: the day is short, then the cell's count.
    let front = with_identity(5, 6, &[]);
    assert_eq!([&front[..16], &front[..]].map(read), [Err(Refusal::ShortSheet); 2]);
    assert_eq!(judged(5, 6, &[3]), Err(Refusal::WrongCount));
    // No second identity behind the first.
    assert_eq!(judged(5, 6, &with_identity(5, 6, &old)), Err(Refusal::WrongCount));
    // Behind it the old sheet's own numbers.
    assert_eq!(judged(5, 6, &old[..172]), Err(Refusal::ShortSheet));
    assert_eq!(judged(5, 6, &[&old[..], &[0]].concat()), Err(Refusal::Trailing));
    let mut crossed = old.clone();
    crossed.copy_within(17..25, 25);
    assert_eq!(judged(5, 6, &crossed), Err(Refusal::Crossed));
}

#[test]
fn there_and_back() {
    for old in [standard(), longest()] {
        for id in [Identity::default(), MOST, Identity { serial: 1_234_567, day: 9_816 }] {
            let new = with_identity(id.serial, id.day, &old);
            for (room, scratch) in [(new.len(), SCRATCH), (new.len() + 1, SCRATCH + 1), (400, 400)] {
                let due = (Ok(new.len()), filled(&new, room), filled(&new, scratch));
                assert_eq!(moved(&old, id, room, scratch), due);
            }
            for (room, scratch) in [(old.len(), SCRATCH), (old.len() + 1, SCRATCH + 1), (400, 400)] {
                let due = (Ok((old.len(), id)), filled(&old, room), filled(&old, scratch));
                assert_eq!(moved_back(&new, room, scratch), due);
            }
            // "The writer keeps to the old sheet".
            let mut out = [0; LONGEST_NEW];
            let length = write(&read(&new).unwrap().figures, &mut out).unwrap();
            assert_eq!((length, &out[..length]), (old.len(), &old[..]));
        }
    }
}

#[test]
fn what_a_move_to_new_refuses() {
    let (old, new) = (standard(), with_identity(5, 6, &standard()));
    let enough = [190, 342];
    refuses_to_new(&[], 5, 6, enough, Refusal::ShortSheet);
    refuses_to_new(&[3], 5, 6, enough, Refusal::WrongCount);
    // The other form, whatever stands behind its count.
    refuses_to_new(&new, 5, 6, [400, 400], Refusal::WrongCount);
    refuses_to_new(&[2], 5, 6, enough, Refusal::WrongCount);
    refuses_to_new(&old[..172], 5, 6, enough, Refusal::ShortSheet);
    for (serial, day) in [(-1, 6), (4_294_967_296, 6), (5, -1), (5, 65_536), (i64::MIN, i64::MAX)] {
        refuses_to_new(&old, serial, day, enough, Refusal::Figure);
        // The sheet before the identity, and the identity before the buffers.
        refuses_to_new(&[&old[..], &[0]].concat(), serial, day, [0, 0], Refusal::Trailing);
        refuses_to_new(&old, serial, day, [0, 0], Refusal::Figure);
    }
    for short in [[189, 342], [190, 341], [0, 342], [190, 0], [0, 0], [400, 190]] {
        refuses_to_new(&old, 5, 6, short, Refusal::Buffers);
    }
    refuses_to_new(&longest(), 5, 6, [341, 342], Refusal::Buffers);
}

#[test]
fn what_a_move_back_refuses() {
    let (old, new) = (standard(), with_identity(5, 6, &standard()));
    let enough = [173, 342];
    refuses_to_old(&[], enough, Refusal::ShortSheet);
    refuses_to_old(&[3], enough, Refusal::WrongCount);
    refuses_to_old(&old, [400, 400], Refusal::WrongCount);
    refuses_to_old(&[4], enough, Refusal::WrongCount);
    refuses_to_old(&new[..16], enough, Refusal::ShortSheet);
    refuses_to_old(&with_identity(5, 65_536, &old), [0, 0], Refusal::Figure);
    refuses_to_old(&with_identity(5, 6, &new), enough, Refusal::WrongCount);
    refuses_to_old(&[&new[..], &[0]].concat(), [0, 0], Refusal::Trailing);
    for short in [[172, 342], [173, 341], [0, 342], [173, 0], [0, 0], [400, 173]] {
        refuses_to_old(&new, short, Refusal::Buffers);
    }
    refuses_to_old(&with_identity(0, 0, &longest()), [324, 342], Refusal::Buffers);
}

/// "Both are read": by the bench run too.
#[test]
fn the_bench_run_takes_both() {
    let printed = |sheet: &[u8]| {
        let length = u16::try_from(sheet.len()).unwrap().to_le_bytes();
        let reading = [&6_553_600_i32.to_le_bytes()[..], &1_310_720_i32.to_le_bytes(), &[0]].concat();
        let mut out = Vec::new();
        bench::run::<Device>(&[&length[..], sheet, &reading].concat(), &mut out).unwrap();
        String::from_utf8(out).unwrap()
    };
    let new = with_identity(5, 6, &standard());
    assert_eq!([&standard()[..], &new].map(printed), ["SYS FLAG\n6553600 32768\n"; 2]);
    assert_eq!(printed(&with_identity(5, -6, &standard())), "refused 3\n");
}
