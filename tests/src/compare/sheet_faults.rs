//! Set in order on sheets that are damaged, cut off, too long, or no sheets at all.

use super::groups::{self, Damaged};
use super::normalize::{gives, same};
use super::sheets::ENOUGH;
use super::sheets::{any_four, any_order, any_part, any_sheet, both_kinds, without_and_with};
use super::Tests;
use bend_tests::fields::Fields;
use bend_tests::part::{Corner, Pair, Part};
use bend_tests::random::Random;
use bend_tests::shapes::all_parts;
use bend_tests::sheet;

pub fn run(tests: &mut Tests) {
    damaged_sheets(tests);
    odd_inputs(tests);
}

fn damaged_sheets(tests: &mut Tests) {
    let how_many = Damaged {
        rounds: 6000,
        to_a_large_one: 20,
        most: 24,
    };
    groups::damaged_sheets(tests, "normalize", 31, how_many, |_, sheet, random| {
        let lent = sheet.len() + 4 - random.below(12).min(sheet.len());
        same(sheet, lent)
    });
    tests.test(
        "normalize: damaged, every bit of small sheets flipped",
        || {
            let mut random = Random::new(32);
            for part in (3..=7).flat_map(all_parts) {
                for part in both_kinds(&part, &mut random) {
                    for skipped in [None, Some(any_four(&mut random))] {
                        let sheet = any_order(&part, skipped, &mut random);
                        for bit in 0..8 * sheet.len() {
                            let mut damaged = sheet.clone();
                            damaged[bit / 8] ^= 1 << (bit % 8);
                            same(&damaged, sheet.len() + 4)?;
                        }
                    }
                }
            }
            Ok(())
        },
    );
    tests.test(
        "normalize: damaged, one byte of small sheets to anything",
        || {
            let mut random = Random::new(33);
            for n in [3, 4, 5, 6, 8].into_iter().flat_map(|n| [n; 4]) {
                let sheet = any_sheet(&any_part(n, &mut random), &mut random);
                for (place, value) in (0..sheet.len()).flat_map(|p| (0..=255).map(move |v| (p, v)))
                {
                    let mut damaged = sheet.clone();
                    damaged[place] = value;
                    same(&damaged, sheet.len() + 4)?;
                }
            }
            Ok(())
        },
    );
    tests.test("normalize: any pairs of a pentagon and a hexagon", || {
        let corners = |n: Corner| (0..=n).flat_map(move |a| (0..=n).map(move |b| (a, b)));
        for pairs in corners(5).flat_map(|one| corners(5).map(move |two| [one, two])) {
            same(&sheet::with_pairs(5, &pairs, None), 11)?;
            same(&sheet::with_pairs(5, &pairs, Some([0, 2, 0, 4])), 11)?;
        }
        let mut random = Random::new(34);
        for _ in 0..20000 {
            let mut any = || (random.below(7) as Corner, random.below(7) as Corner);
            let pairs = [any(), any(), any()];
            let fields = Fields {
                n: 6,
                pairs: pairs.to_vec(),
                skipped: random.coin().then(|| any_four(&mut random)),
                angles: random.coin().then(|| vec![1800, -1, 0]),
            };
            same(&fields.bytes(), 21)?;
        }
        Ok(())
    });
    groups::truncated_sheets(tests, "normalize", 35, |sheet| same(sheet, ENOUGH));
}

fn odd_inputs(tests: &mut Tests) {
    tests.test("normalize: empty input", || gives(1, &[], 64));
    tests.test("normalize: every single byte", || {
        (0..=255).try_for_each(|byte| same(&[byte], 64))
    });
    tests.test("normalize: every pair of bytes", || {
        (0..=u16::MAX).try_for_each(|two| same(&two.to_be_bytes(), 8))
    });
    tests.test("normalize: every count, without pairs", || {
        for map in (1..16).step_by(2) {
            for count in 0..=u16::MAX {
                let [high, low] = count.to_be_bytes();
                same(&[map, high, low], 8)?;
                same(&[map, high, low, 0, 0, 0, 9], 8)?;
            }
        }
        Ok(())
    });
    tests.test("normalize: 65,535 as a count, with all its pairs", || {
        let mut sheet = vec![3, 255, 255];
        sheet.resize(3 + 4 * 65532, 1);
        gives(3, &sheet, sheet.len())
    });
    tests.test("normalize: 1,025 corners, with all their pairs", || {
        let fan: Vec<Pair> = (2..1024).map(|b| (0, b)).collect();
        let with_angles = Part::new(1025, &fan).angled(&[0; 1022]);
        gives(3, &sheet::normal(&with_angles), ENOUGH)?;
        gives(3, &sheet::with_pairs(1025, &fan, None), ENOUGH)?;
        gives(
            3,
            &sheet::with_pairs(1025, &fan, Some([0, 0, 0, 7])),
            ENOUGH,
        )
    });
    tests.test("normalize: a sheet longer than any", || {
        let mut random = Random::new(41);
        for n in [3, 4, 1024] {
            for mut sheet in without_and_with(&any_part(n, &mut random)) {
                sheet.resize(1_000_000, 0);
                gives(2, &sheet, ENOUGH)?;
            }
        }
        Ok(())
    });
    tests.test("normalize: all bytes 255, and all bytes 0", || {
        for length in (0..64).chain([4095, 4096, 6133, 6134, 70_000]) {
            gives(1, &vec![255; length], ENOUGH)?;
            gives(1, &vec![0; length], ENOUGH)?;
        }
        Ok(())
    });
    tests.test("normalize: random bytes", || {
        let mut random = Random::new(42);
        for _ in 0..40_000 {
            let length = random.below(48);
            same(&random.bytes(length), 64)?;
        }
        Ok(())
    });
    tests.test("normalize: random bytes after a good head", || {
        let mut random = Random::new(43);
        for _ in 0..40_000 {
            let n = random.between(3, 9);
            let (bit_2, bit_3) = (random.below(2), random.below(2));
            let map = 1 + if n > 3 { 2 } else { 0 } + 4 * bit_2 + 8 * bit_3;
            let mut sheet = vec![map as u8, 0, n as u8];
            for _ in 0..2 * (n - 3) {
                sheet.extend([0, random.below(n + 1) as u8]);
            }
            sheet.extend(random.bytes(4 * bit_2));
            for _ in 0..bit_3 * (n - 3) {
                sheet.extend([random.below(8) as u8, random.byte()]);
            }
            same(&sheet, random.below(52))?;
        }
        Ok(())
    });
}
