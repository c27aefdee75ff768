//! The generators hold what they say.

use super::*;

#[test]
fn bases_are_sound_and_differ() {
    let mut rng = Rng::new(3);
    let mut full = 0;
    for _ in 0..300 {
        let base = sound(&mut rng);
        let loaded = model::load(&base.image).expect("sound");
        assert_eq!([loaded.n, loaded.r], [base.shape.n, base.shape.r]);
        full += usize::from(loaded.units == [0; 72]);
        let free = free_units(&base.shape, &base.image).len() as u32;
        let ones: u32 = loaded.units.iter().map(|word| word.count_ones()).sum();
        assert_eq!(free, ones);
    }
    assert!(full > 0, "some volume is full");
}

#[test]
fn blank_images_are_what_format_writes() {
    let mut rng = Rng::new(6);
    for _ in 0..50 {
        let shape = shape(&mut rng);
        assert_eq!(blank(&shape), fresh(&shape));
        let past = past_a_limit(&mut rng, &shape);
        let refusal = model::load(&blank(&past)).unwrap_err();
        assert_eq!(refusal.number, 3, "{past:?}");
    }
}

#[test]
fn each_damage_reaches_its_row() {
    let mut rng = Rng::new(4);
    for row in 1..=6 {
        let mut reached = [0; 2];
        for _ in 0..600 {
            let mut base = sound(&mut rng);
            damage(&mut rng, &base.shape, &mut base.image, row);
            if let Err(refusal) = model::load(&base.image) {
                let edition = base.shape.edition.number() as usize;
                reached[edition - 1] += usize::from(refusal.number == row);
            }
        }
        let enough = reached.into_iter().all(|times| times > 200);
        assert!(enough, "row {row} was reached {reached:?} times");
    }
}

#[test]
fn shapes_and_images_agree_with_the_model() {
    let mut rng = Rng::new(8);
    for _ in 0..100 {
        let base = sound(&mut rng);
        let Shape {
            edition,
            p,
            c,
            m,
            n,
            r,
        } = base.shape;
        let shape = model::shape(&base.image).expect("sound");
        assert_eq!(shape.edition, edition.number());
        assert_eq!([shape.p, shape.c, shape.m], [p, c, m]);
        assert_eq!([shape.n, shape.r], [n, r]);
        for chunk in 0..c {
            let size = model::stored_size(&base.image, chunk).expect("a good chunk");
            let map = entry(&base.image, chunk);
            let due = if map == X {
                0
            } else {
                let whole = UNIT * units_in(&base.shape, &base.image, map).len() as u64;
                size_in(&base.shape, &base.image, map).unwrap_or(whole)
            };
            assert_eq!(size, due);
        }
    }
}

#[test]
fn damaged_tables_keep_their_trailer_and_are_seldom_sound() {
    let mut rng = Rng::new(7);
    let mut faulty = 0;
    for _ in 0..300 {
        let mut base = sound(&mut rng);
        let before = base.image.clone();
        tables_damaged(&mut rng, &base.shape, &mut base.image);
        let tables = before.len() - base.shape.trailer_len();
        assert_eq!(base.image[tables..], before[tables..]);
        faulty += usize::from(model::load(&base.image).is_err());
    }
    assert!(faulty > 250, "{faulty} were unsound");
}

#[test]
fn assembled_plans_on_the_lowest_units_pass() {
    let mut rng = Rng::new(5);
    let mut passed = 0;
    let mut planners = 0;
    for _ in 0..300 {
        let base = sound(&mut rng);
        let chunk = rng.below(base.shape.c);
        let k = rng.between(1, base.shape.p);
        let size = size_of(&mut rng, k);
        let edition = base.shape.edition;
        let plan = encode(&write_plan(&mut rng, &base, edition, chunk, size));
        let room = free_units(&base.shape, &base.image).len() as u64 >= k;
        let checked = model::check_write(&base.image, chunk, size, &plan);
        assert_eq!(checked.is_ok(), room);
        passed += usize::from(checked.is_ok());
        assert_eq!(encode(&decode(&plan)), plan);
        let mut out = [0; LONGEST_PLAN];
        let steps = model::plan_write(&base.image, chunk, size, &mut out);
        let planned = steps.is_ok_and(|steps| plan == out[..16 * steps as usize]);
        planners += usize::from(planned);
    }
    assert!(passed > 100);
    assert!((20..passed - 50).contains(&planners), "{planners}");
}

/// Units that are free but not the lowest, and the lowest where others count as
/// free: nothing but rule 2 is broken by either.
#[test]
fn plans_on_other_units_break_rule_2() {
    let mut rng = Rng::new(10);
    let mut seen = [0; 2];
    for _ in 0..3000 {
        let base = sound(&mut rng);
        let Base { shape, image } = &base;
        let chunk = rng.below(shape.c);
        let k = rng.between(1, shape.p) as usize;
        let size = size_of(&mut rng, k as u64);
        let free = free_units(shape, image);
        let taken: Vec<u64> = (0..shape.n).filter(|unit| !free.contains(unit)).collect();
        let others = other_units(&mut rng, &free, k);
        let counted = miscounted(&mut rng, &free, &taken, k);
        for (at, units) in [others, counted].into_iter().enumerate() {
            let Some(units) = units else { continue };
            seen[at] += 1;
            let mut different = units.clone();
            different.sort_unstable();
            different.dedup();
            assert_eq!(different.len(), k);
            assert_eq!(units.iter().all(|unit| free.contains(unit)), at == 0);
            let map = free_maps(shape, image)[0];
            let mut steps = assemble(shape, chunk, size, &units, map);
            let check = |steps: &[Fields]| model::check_write(image, chunk, size, &encode(steps));
            let refused = check(&steps).expect_err("other units");
            assert_eq!([refused.number, refused.place], [11, 2]);
            if let Some(lowest) = free.get(..k) {
                put_on(shape, &mut steps, lowest);
                assert_eq!(check(&steps), Ok(()));
                put_on(shape, &mut steps, &units);
                assert_eq!(steps, assemble(shape, chunk, size, &units, map));
            }
        }
    }
    assert!(seen.into_iter().all(|count| count > 500), "{seen:?}");
}

#[test]
fn reserved_units_come_up_in_every_way() {
    let mut rng = Rng::new(9);
    let mut seen = [0; 7];
    for _ in 0..3000 {
        let shape = shape(&mut rng);
        let Shape { p, c, n, r, .. } = shape;
        assert!(r + p <= n && (r == 0 || shape.edition == Edition::Two));
        assert_eq!(shape.in_edition(Edition::One).r, 0);
        let room = (c + 1) * p;
        let kinds = [
            shape.edition == Edition::Two && r == 0,
            (1..=3).contains(&r),
            r > n / 2,
            r > 0 && r == n - p,
            r > 0 && n - r == room,
            r > 0 && n - r == room - 1,
            r >= 64,
        ];
        for (count, is) in seen.iter_mut().zip(kinds) {
            *count += usize::from(is);
        }
    }
    assert!(seen.into_iter().all(|count| count > 40), "{seen:?}");
}
