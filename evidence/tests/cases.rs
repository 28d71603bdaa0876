//! Document 01's cases A to K, and its example.

use plain::{LOWEST_LEVEL, Refusal, Survey, report_of_file};

/// Cases A to K have no levels.
fn levels(table: &[u16]) -> Vec<i16> {
    vec![LOWEST_LEVEL; table.len() / 2]
}

fn check_table(units: u16, table: &[u16]) -> Result<(), Refusal> {
    plain::check_table(units, table, &levels(table))
}

fn check_fresh(units: u16, table: &[u16]) -> Result<(), Refusal> {
    plain::check_fresh(units, table, &levels(table))
}

fn loaded(units: u16, table: &[u16]) -> Survey {
    let mut survey = Survey::new();
    survey.load_stored(units, table, &levels(table)).unwrap();
    survey
}

fn finished(units: u16, table: &[u16]) -> Survey {
    let mut survey = loaded(units, table);
    survey.run(u16::MAX).unwrap();
    assert!(survey.finished());
    survey
}

fn first_countdown(units: u16, table: &[u16]) -> u16 {
    loaded(units, table).status().unwrap().countdown
}

fn labels(survey: &Survey) -> Vec<u16> {
    (0..survey.links).map(|j| survey.link(j).unwrap().label).collect()
}

fn lone(survey: &Survey) -> Vec<u16> {
    (0..survey.links).filter(|&j| survey.link(j).unwrap().lone).collect()
}

fn singles(survey: &Survey) -> Vec<u16> {
    (0..survey.units).filter(|&v| survey.unit(v).unwrap().single).collect()
}

#[test]
fn a_one_unit() {
    assert_eq!((finished(1, &[]).rounds, first_countdown(1, &[])), (16, 16));
}

const B: [u16; 8] = [0, 1, 1, 2, 0, 2, 2, 3];

#[test]
fn b_ring_and_one_more() {
    let survey = finished(4, &B);
    assert_eq!((survey.rounds, survey.requests, first_countdown(4, &B)), (27, 22, 30));
    assert_eq!((singles(&survey), lone(&survey)), (vec![2], vec![3]));
}

#[test]
fn b_file_and_report() {
    let file = "010004FB\n0200000001FD\n0200010002FB\n0200000002FC\n0200020003F9\n0F0004ED\n";
    let report = "11001B0016BE\n1200000000FFFF000000F0\n12000100000000000100EC\n12000200000000000201E9\n\
                  12000300000002000300E6\n130000000000ED\n130001000000EC\n130002000000EB\n\
                  130003000301E6\n1F00010001DF\n";
    let mut out = [0; 1000];
    let length = report_of_file(file.as_bytes(), &mut out);
    assert_eq!(std::str::from_utf8(&out[..length]).unwrap(), report);
}

#[test]
fn c_two_units() {
    let survey = finished(2, &[0, 1]);
    assert_eq!((survey.rounds, lone(&survey), singles(&survey)), (20, vec![0], vec![]));
}

#[test]
fn d_ring_of_four() {
    let survey = finished(4, &[0, 1, 1, 2, 2, 3, 3, 0]);
    assert_eq!((labels(&survey), singles(&survey)), (vec![0; 4], vec![]));
}

#[test]
fn e_two_rings_at_a_point() {
    let survey = finished(5, &[0, 1, 1, 2, 0, 2, 2, 3, 3, 4, 2, 4]);
    assert_eq!((labels(&survey), singles(&survey)), (vec![0, 0, 0, 3, 3, 3], vec![2]));
}

#[test]
fn f_two_rings_apart() {
    let survey = finished(6, &[0, 1, 1, 2, 0, 2, 3, 4, 4, 5, 3, 5]);
    assert_eq!((labels(&survey), singles(&survey)), (vec![0, 0, 0, 3, 3, 3], vec![]));
}

#[test]
fn g_places() {
    let survey = finished(5, &[0, 3, 3, 1, 1, 2, 1, 4]);
    assert_eq!(survey.pre[..5], [0, 2, 4, 1, 3]);
}

#[test]
fn h_list_of_five() {
    // a ranking of five objects among the eight list places of four units
    let mut survey = loaded(4, &[]);
    survey.stage = 4;
    for object in 0..5 {
        survey.sum[object] = 1;
        survey.jump[object] = (object as u16).wrapping_sub(1);
    }
    let mut rounds = 0;
    while survey.stage == 4 {
        survey.round().unwrap();
        rounds += 1;
    }
    assert_eq!((rounds, survey.requests), (4, 8));
    assert_eq!(survey.sum[..5], [1, 2, 3, 4, 5]);
}

#[test]
fn i_unit_counts() {
    assert_eq!(check_table(257, &[]), Err(Refusal::BadUnitCount));
    assert_eq!(check_table(256, &[]), Ok(()));
    assert_eq!(first_countdown(256, &[]), 804);
}

/// 22 (document 02, T-10): two or more units, one of them without a link; last among the checks, and none of a stored
/// table.
#[test]
fn units_without_a_link() {
    for passes in [check_fresh(1, &[]), check_fresh(2, &[1, 0]), check_table(2, &[]), check_table(3, &[2, 0])] {
        assert_eq!(passes, Ok(()));
    }
    for units in [2, 256] {
        assert_eq!(check_fresh(units, &[]), Err(Refusal::UnlinkedUnit));
    }
    for table in [[1, 2], [2, 0], [0, 1]] {
        assert_eq!(check_fresh(3, &table), Err(Refusal::UnlinkedUnit));
    }
    assert_eq!(check_fresh(257, &[]), Err(Refusal::BadUnitCount));
    assert_eq!(check_fresh(3, &[3, 3]), Err(Refusal::EndMissing));
    assert_eq!(check_fresh(3, &[0, 1, 1, 0]), Err(Refusal::RepeatedLink));
    for places in [18, 17] {
        let mut out = [7; 18];
        assert_eq!(plain::write_file(2, &[], &[], &mut out[..places]), Err(Refusal::UnlinkedUnit));
        assert_eq!(out, [7; 18]);
    }
}

#[test]
fn j_repeated_link() {
    assert_eq!(check_table(2, &[0, 1, 1, 0]), Err(Refusal::RepeatedLink));
}

#[test]
fn k_end_before_equal_ends() {
    assert_eq!(check_table(3, &[3, 3]), Err(Refusal::EndMissing));
}

/// Each number is that of its cause: the earlier of two that apply.
#[test]
fn numbers() {
    let numbers: Vec<u8> = [
        check_table(0, &[0]),
        check_table(1, &[0]),
        check_table(1, &[9; 2050]),
        check_table(3, &[1, 1, 0, 3]),
        check_table(3, &[0, 1, 1, 0, 2, 2]),
        check_table(3, &[0, 1, 1, 0]),
    ]
    .into_iter()
    .map(|checked| checked.unwrap_err().number())
    .collect();
    assert_eq!(numbers, [4, 5, 6, 7, 8, 9]);
}
