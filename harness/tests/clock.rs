//! The clock word: P1 to P4, its limits, and every narrow word extended to every time.

use second::answer::Refusal;
use second::clock::Widths;
use second::random::each_seed;

const REAL: Widths = Widths::REAL;
const TOP: u64 = 281_474_976_710_655;

/// Distance and write time after an extension of the unlocked word at write time 2.
fn extended_from_two(time: u64) -> (u64, u64) {
    let word = REAL.extend(REAL.at(2).unwrap(), time).unwrap();
    (word.distance(), word.write_time())
}

#[test]
fn p1_packing() {
    let word = REAL.word(true, 5, 3).unwrap();
    assert_eq!(REAL.pack(word), 9_224_779_411_738_329_091);
}

#[test]
fn p2_to_p4_extending() {
    assert_eq!(extended_from_two(32_769), (32_767, 2));
    assert_eq!(extended_from_two(32_770), (0, 32_770));
    assert_eq!(extended_from_two(32_771), (1, 32_770));
}

#[test]
fn real_limits() {
    assert_eq!(REAL.greatest_time(), TOP);
    assert_eq!(REAL.greatest_distance(), 32_767);
    assert!(REAL.word(true, 32_767, TOP).is_ok());
    assert_eq!(REAL.word(false, 32_768, 0), Err(Refusal::OutOfRange));
    assert_eq!(REAL.word(false, 0, TOP + 1), Err(Refusal::OutOfRange));
    let word = REAL.at(7).unwrap();
    assert!(REAL.extend(word, 7).is_ok());
    assert!(REAL.extend(word, TOP).is_ok());
    assert_eq!(REAL.extend(word, 6), Err(Refusal::OutOfRange));
    assert_eq!(REAL.extend(word, TOP + 1), Err(Refusal::OutOfRange));
}

#[test]
fn widths_leave_room_for_the_lock() {
    assert_eq!(Widths::new(15, 48), Some(REAL));
    assert_eq!(Widths::new(16, 48), None);
    assert_eq!(Widths::new(u32::MAX, 1), None);
}

#[test]
fn any_number_is_a_word() {
    each_seed(0..100_000, |random| {
        let bits = random.number();
        assert_eq!(REAL.pack(REAL.unpack(bits)), bits);
    });
}

#[test]
fn every_narrow_word_extends_to_every_time() {
    let narrow = Widths::new(2, 4).unwrap();
    for bits in 0..1 << 7 {
        let word = narrow.unpack(bits);
        assert_eq!(narrow.pack(word), bits);
        for time in 0..20 {
            let Ok(extended) = narrow.extend(word, time) else {
                assert!(time < word.write_time() || time > 15);
                continue;
            };
            assert_eq!(extended.read_time(), time);
            assert_eq!(extended.locked(), word.locked());
            // The write time moves by whole rounds of the distance, and no further than it must.
            assert_eq!((extended.write_time() - word.write_time()) % 4, 0);
            assert!(extended.distance() < 4);
        }
    }
}
