//! The original with checks of overflow, in a profile of its own: within the limits none of its sums leaves an i32. The
//! driver's own calculation of the last seed of which that is true is held to it.
use compare::ground::{self, reach, rust_ground, surface, Site};
use compare::rng::Rng;
use compare::seeds::{any, fits, LONGEST, MOST, NAMED};

/// The last seed with which no coordinate leaves an i32.
fn last() -> u32 {
    (MOST..)
        .find(|&seed| !fits(seed + 1, 1_000_000))
        .expect("seeds end")
}

fn far(seed: u32) -> Site {
    let (_, most) = reach(1);
    Site {
        seed,
        cx: most,
        cy: 0,
        cz: most,
        ..LONGEST
    }
}

#[test]
fn within_the_limits_it_overflows_nowhere() {
    let mut rng = Rng::new(11);
    for chunk_size in 1..=64 {
        let (least, most) = reach(chunk_size);
        let corners = [(least, least), (least, most), (most, least), (most, most)];
        for (seed, (cx, cz)) in NAMED.into_iter().flat_map(|seed| corners.map(|at| (seed, at))) {
            let s = Site {
                seed,
                chunk_size,
                cx,
                cz,
                ..LONGEST
            };
            rust_ground(&Site { cy: surface(&s), ..s });
        }
    }
    for _ in 0..20_000 {
        let size = rng.pick(&[1, 2, 5, 8]);
        let s = Site {
            seed: any(&mut rng),
            ..ground::settings(&mut rng, size)
        };
        rust_ground(&ground::placed(&mut rng, s));
    }
}

/// By hand, for 0.025 x at the frequency 8: with this seed x is 10,737,417,216, the product 268,435,440, the coordinate
/// 2^31 - 128. With the next seed x is 1,024 more, and the product 2^28.
#[test]
fn beyond_them_it_does_where_the_driver_says() {
    assert_eq!(last(), 10_736_417);
    rust_ground(&far(last()));
    let beyond = std::panic::catch_unwind(|| rust_ground(&far(last() + 1)));
    assert!(beyond.is_err(), "a sum beyond an i32 is not found");
}
