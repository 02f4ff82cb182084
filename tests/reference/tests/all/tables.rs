//! Properties of tables of cells.

use rateio_reference::amounts::Amounts;
use rateio_reference::months::{counts_up_to, sound_month, Counts, Style, STYLES};
use rateio_reference::rng::Rng;
use rateio_reference::table::{all_tables, is_table, random_table, some_table};

/// Credits and debits with the same total; some credits negative where `negative`.
fn totals(rng: &mut Rng, payees: usize, users: usize, most: i64, negative: bool) -> (Vec<i128>, Vec<i128>) {
    let mut vd: Vec<i128> = (0..users).map(|_| i128::from(rng.any_size(most))).collect();
    vd[rng.below(users)] += 1;
    let mut vc: Vec<i128> = (0..payees).map(|_| i128::from(rng.any_size(most))).collect();
    if negative {
        vc.iter_mut().step_by(2).for_each(|credit| *credit = -*credit);
    }
    let rest = vd.iter().sum::<i128>() - vc.iter().sum::<i128>();
    vc[rng.below(payees)] += rest;
    (vc, vd)
}

#[test]
fn tables_are_found_among_all() {
    let mut rng = Rng::new(11);
    let mut broken = 0;
    for round in 0..1_500 {
        let (payees, users) = (1 + rng.below(4), 1 + rng.below(4));
        let most = rng.pick(&[2, 5, 20, 1_000]);
        let (vc, vd) = totals(&mut rng, payees, users, most, round % 2 == 0);
        let all = all_tables(&vc, &vd);
        assert!(all.contains(&some_table(&vc, &vd)), "{:?} {:?}", vc, vd);
        assert!(all.contains(&random_table(&vc, &vd, &mut rng)), "{:?} {:?}", vc, vd);
        broken += usize::from(all.len() > 1);
    }
    assert!(broken > 500, "tables with free cents have to come up: {}", broken);
}

#[test]
fn every_choice_of_odd_cents_is_judged() {
    let mut rng = Rng::new(15);
    // Choices with right totals: tables, and those that give a whole cell a cent.
    let (mut tables, mut whole_raised) = (0, 0);
    for _ in 0..1_000 {
        let most = rng.pick(&[3, 6, 12]);
        let (vc, vd) = totals(&mut rng, 3, 3, most, false);
        let total: i128 = vd.iter().sum();
        let all = all_tables(&vc, &vd);
        let mut found = 0;
        for choice in 0..1 << 9 {
            let raised = |i: usize, j: usize| choice >> (i * 3 + j) & 1 == 1;
            let cell = |i: usize, j: usize| (vc[i] * vd[j]).div_euclid(total) + i128::from(raised(i, j));
            let row = |i: usize| (0..3).map(|j| cell(i, j)).sum::<i128>() == vc[i];
            let column = |j: usize| (0..3).map(|i| cell(i, j)).sum::<i128>() == vd[j];
            let is_whole = |k: usize| vc[k / 3] * vd[k % 3] % total == 0;
            let raises_whole = (0..9).any(|k| is_whole(k) && raised(k / 3, k % 3));
            let cells: Vec<i64> = (0..9).map(|k| cell(k / 3, k % 3) as i64).collect();
            let right_totals = (0..3).all(row) && (0..3).all(column);
            assert_eq!(is_table(&vc, &vd, &cells).is_ok(), right_totals && !raises_whole);
            whole_raised += usize::from(right_totals && raises_whole);
            found += usize::from(right_totals && !raises_whole);
        }
        assert_eq!(found, all.len());
        tables += found;
    }
    assert!(tables > 300 && whole_raised > 30, "both have to come up: {} {}", tables, whole_raised);
}

#[test]
fn tables_of_months() {
    let mut rng = Rng::new(12);
    for _ in 0..1_000 {
        let (style, counts) = (rng.pick(&STYLES), counts_up_to(&mut rng, Counts { users: 12, agents: 9, points: 30 }));
        let lines = sound_month(&mut rng, style, counts);
        let amounts = Amounts::of_month(&lines, 0, &vec![0; counts.users]);
        let (vc, vd) = (&amounts.credits.vc, &amounts.charges.vd);
        assert_eq!(is_table(vc, vd, &some_table(vc, vd)), Ok(()));
        assert_eq!(is_table(vc, vd, &random_table(vc, vd, &mut rng)), Ok(()));
    }
}

#[test]
fn a_table_that_is_none_is_found() {
    let mut rng = Rng::new(13);
    for round in 0..500 {
        let (payees, users) = (2 + rng.below(6), 2 + rng.below(6));
        let (vc, vd) = totals(&mut rng, payees, users, 10_000, round % 2 == 0);
        let table = some_table(&vc, &vd);
        let cell = rng.below(table.len());
        // One cent more or less breaks a row's total.
        for change in [1, -1] {
            let mut wrong = table.clone();
            wrong[cell] += change;
            assert!(is_table(&vc, &vd, &wrong).is_err());
        }
        // A ring of four cells with 2 cents each way keeps all totals, but no cell is a floor then or one more.
        let (i, j) = (rng.below(payees - 1), rng.below(users - 1));
        let mut wrong = table.clone();
        for (cell, change) in [(i * users + j, 2), (i * users + j + 1, -2)] {
            wrong[cell] += change;
            wrong[cell + users] -= change;
        }
        assert!(is_table(&vc, &vd, &wrong).is_err());
        assert!(is_table(&vc, &vd, &table[1..]).is_err());
    }
    // A whole cell takes no extra cent, even where the totals would come out.
    assert_eq!(all_tables(&[2, 2], &[2, 2]), [[1, 1, 1, 1]]);
    assert!(is_table(&[2, 2], &[2, 2], &[2, 0, 0, 2]).is_err());
    // Rounding each cell alone misses a total.
    assert!(is_table(&[1, 1, 1], &[1, 2], &[0, 1, 0, 1, 0, 1]).is_err());
    assert!(is_table(&[0, 0], &[0], &[0, 0]).is_err());
}

#[test]
fn the_largest_tables() {
    let mut rng = Rng::new(14);
    let (payees, users) = (257, 512);
    for (most, negative) in [(1_000_000_000_000, true), (300, false), (2, false), (1, true)] {
        let (vc, vd) = totals(&mut rng, payees, users, most, negative);
        assert_eq!(is_table(&vc, &vd, &some_table(&vc, &vd)), Ok(()));
        assert_eq!(is_table(&vc, &vd, &random_table(&vc, &vd, &mut rng)), Ok(()));
    }
    // Every cell but those of the last payee alike and broken.
    let vd = vec![1; users];
    let mut vc = vec![1; payees];
    vc[payees - 1] = users as i128 - (payees as i128 - 1);
    assert_eq!(is_table(&vc, &vd, &some_table(&vc, &vd)), Ok(()));
    for style in [Style::Ordinary, Style::Extreme] {
        let lines = sound_month(&mut rng, style, Counts { users, agents: payees - 1, points: 1024 });
        let amounts = Amounts::of_month(&lines, 0, &vec![0; users]);
        let (vc, vd) = (&amounts.credits.vc, &amounts.charges.vd);
        assert_eq!(is_table(vc, vd, &some_table(vc, vd)), Ok(()));
    }
}
