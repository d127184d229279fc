//! Tours: the library and the reference agree on random ones, valid and damaged, on the
//! answer and on every lent entry.

use outside::jobs::{self, SIGNED_ENDS, UNSIGNED_ENDS};
use outside::library;
use outside::plain::PLAIN;
use outside::random::Random;
use outside::reference::{Axis, Stop, Tour};

/// A leg that ends later than this, or nowhere, is a long search.
const LONG: i64 = 200;

/// The answers and the lists agree. Answers the number.
fn agrees(tour: &Tour, stops: &[Stop], entries: usize) -> u32 {
    let mut got: Vec<u32> = (0..entries as u32).map(|i| !i).collect();
    let mut want = got.clone();
    let toured = library::plan_tour(tour, stops, &mut got);
    assert_eq!(toured, tour.plan(stops, &mut want), "{tour:?} {stops:?}");
    assert_eq!(got, want, "{tour:?} {stops:?}");
    toured.map_or_else(|refused| refused.number, |_| 0)
}

#[test]
fn random_tours_agree() {
    let mut random = Random::new(31);
    let mut seen = [0; 19];
    let mut long_searches = 20;
    for _ in 0..4_000 {
        let (tour, stops) = jobs::tour(&mut random);
        let (hurt, hurt_stops) = jobs::damaged_tour(&mut random, &tour, &stops);
        for (tour, stops) in [(tour, stops), (hurt, hurt_stops)] {
            if tour.searches_past(&stops, LONG) {
                if long_searches == 0 {
                    continue;
                }
                long_searches -= 1;
            }
            let entries = match random.below(6) {
                0 => random.below(stops.len() + 1),
                1 => stops.len() + random.below(4),
                _ => stops.len(),
            };
            seen[agrees(&tour, &stops, entries) as usize] += 1;
        }
    }
    eprintln!("tours by number {seen:?}");
    for number in [0, 11, 1, 4, 12, 5, 15, 6, 9, 10] {
        assert!(seen[number] > 5, "{number}: {seen:?}");
    }
}

/// A tour of three stops on axes 1 and 4.
fn three() -> (Tour, [Stop; 3]) {
    let tour = Tour { mask: 0b010010, axes: [Axis { half_period: 2, ..PLAIN }; 6] };
    (tour, [(4, 3), (-9, 4_096), (-9, 0)].map(|(position, dwell)| Stop { positions: [position; 6], dwell }))
}

#[test]
fn every_value_at_every_end() {
    let (tour, stops) = three();
    for i in 0..6 {
        for value in SIGNED_ENDS {
            let mut changed = tour;
            changed.axes[i].start_position = value;
            agrees(&changed, &stops, 3);
            for at in 0..3 {
                let mut changed = stops;
                changed[at].positions[i] = value;
                agrees(&tour, &changed, 3);
            }
        }
        for j in 0..5 {
            for value in UNSIGNED_ENDS {
                let mut changed = tour;
                changed.axes[i] = jobs::with_unsigned(tour.axes[i], j, value);
                agrees(&changed, &stops, 3);
            }
        }
    }
    for at in 0..3 {
        for value in UNSIGNED_ENDS {
            let mut changed = stops;
            changed[at].dwell = value;
            agrees(&tour, &changed, 3);
        }
    }
}

#[test]
fn every_mask_and_every_length() {
    let (tour, stops) = three();
    for mask in (0..130).chain([1 << 31, u32::MAX]) {
        agrees(&Tour { mask, ..tour }, &stops, 3);
        assert_eq!(agrees(&Tour { mask, ..tour }, &[], 0), 0);
        assert_eq!(agrees(&Tour { mask, ..tour }, &[], 2), 0);
    }
    let still = Stop { positions: [0; 6], dwell: 1 };
    for count in 0..70 {
        for entries in [0, 1, count.max(1) - 1, count, count + 1] {
            agrees(&tour, &vec![still; count], entries);
        }
    }
}
