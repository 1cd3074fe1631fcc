//! Records that could not arise are closed or ended sessions and stay as they are.

use crate::flat;

fn record(long: &[u64], short: &[u32]) -> Vec<u8> {
    let mut bytes: Vec<u8> = long.iter().flat_map(|number| number.to_le_bytes()).collect();
    bytes.extend(short.iter().flat_map(|number| number.to_le_bytes()));
    bytes
}

fn module_open(length: u64, numbers: [u32; 7]) -> bool {
    flat::module_is_open(&record(&[length], &numbers)) == 1
}

#[test]
fn module_records() {
    assert!(module_open(10, [7_000, 1, 0, 0, 0, 0, 0]));
    assert!(!module_open(10, [7_001, 1, 0, 0, 0, 0, 0]));
    assert!(!module_open(0, [0, 1, 0, 0, 0, 0, 0]));
    assert!(!module_open(262_145, [0, 1, 0, 0, 0, 0, 0]));
    assert!(!module_open(10, [0, 1, 1, 0, 0, 0, 0]));
    assert!(module_open(10, [0, 2, 2, 10, 0, 0, 0]));
    assert!(!module_open(10, [0, 2, 2, 11, 0, 0, 0]));
    assert!(!module_open(10, [0, 2, 0x10002, 10, 0, 0, 0]));
    assert!(module_open(10, [0, 3, 2, 10, 3, 3, 9]));
    assert!(!module_open(10, [0, 3, 2, 10, 3, 3, 8]));
    assert!(!module_open(10, [0, 3, 2, 10, 3, 4, 12]));
    assert!(!module_open(10, [0, 3, 2, 10, 3, 0, 0]));
    assert!(module_open(10, [0, 4, 2, 10, 10, 0, 10]));
    assert!(!module_open(10, [0, 4, 2, 10, 11, 0, 10]));
    assert!(!module_open(10, [0, 4, 2, 10, 3, 4, 10]));
    assert!(!module_open(10, [0, 5, 0, 0, 0, 0, 0]));
    assert!(module_open(262_144, [0, 4, 2, 262_143, 5, 0, 262_143]));
    assert!(!module_open(262_144, [0, 4, 2, 262_143, 4, 0, 262_143]));
}

#[test]
fn forged_module_is_left_alone() {
    let mut state = record(&[5], &[9, 9, 9, 9, 9, 9, 9]);
    let before = state.clone();
    let mut count = 9;
    let (mut flash, mut reply) = ([1; 5], [2; 64]);
    assert_eq!(flat::module_frame(&mut state, 6, &[], &mut flash[..4], &mut reply, &mut count), 3);
    assert_eq!(flat::module_frame(&mut state, 6, &[], &mut flash, &mut reply[..63], &mut count), 2);
    assert_eq!(flat::module_frame(&mut state, 6, &[], &mut flash, &mut reply, &mut count), 0);
    assert_eq!((count, state), (0, before));
    let mut short = record(&[5], &[0, 1, 0, 0, 0, 0]);
    assert_eq!(flat::module_wait(&mut short, 8_000, &mut flash, &mut reply, &mut count), 0);
    assert_eq!(short, record(&[5], &[0, 1, 0, 0, 0, 0]));
    assert_eq!(flat::module_wait(&mut [5], 1, &mut flash, &mut reply, &mut count), 0);
}

/// Whether a host record is a session under way: then waiting its limit out is answered.
fn host_live(length: usize, wish: u64, numbers: [u32; 10]) -> bool {
    let mut state = record(&[length as u64, wish], &numbers);
    let before = state.clone();
    let (mut count, mut passed) = (0, 0);
    let answer = flat::host_wait(&mut state, 5_000, &vec![0; length], &mut [0; 4_096], &mut count, &mut passed);
    assert_eq!(state == before, answer == flat::NOTHING);
    answer != flat::NOTHING
}

#[test]
fn host_records() {
    assert!(host_live(8, 4, [1, 1, 5, 0, 1, 0, 0, 0, 999, 3]));
    assert!(!host_live(8, 4, [1, 1, 5, 0, 0, 0, 0, 0, 0, 0]));
    assert!(!host_live(8, 4, [1, 1, 5, 5, 1, 0, 0, 0, 0, 0]));
    assert!(!host_live(8, 4, [1, 1, 5, 0, 1, 0, 0, 0, 1_000, 0]));
    assert!(!host_live(8, 4, [1, 1, 5, 0, 1, 0, 0, 0, 0, 4]));
    assert!(host_live(8, 0, [2, 3, 4, 4, 1, 1, 0, 0, 0, 0]));
    assert!(!host_live(8, 4, [2, 3, 4, 5, 1, 1, 0, 0, 0, 0]));
    assert!(host_live(8, 4, [3, 3, 4, 1, 0, 1, 0, 0, 0, 0]));
    assert!(!host_live(8, 4, [3, 3, 4, 0, 0, 1, 0, 0, 0, 0]));
    assert!(host_live(8, 4, [4, 2, 1, 1, 0, 1, 3, 3, 0, 0]));
    assert!(!host_live(8, 2, [4, 2, 1, 1, 0, 1, 3, 3, 0, 0]));
    assert!(!host_live(8, 4, [4, 2, 1, 1, 0, 1, 3, 4, 0, 0]));
    assert!(!host_live(8, 4, [4, 2, 1, 1, 0, 1, 0, 1, 0, 0]));
    assert!(host_live(8, 2_000, [5, 2, 1, 1, 0, 1, 1_024, 0, 4_999, 0]));
    assert!(!host_live(8, 2_000, [5, 2, 1, 1, 0, 1, 1_025, 0, 0, 0]));
    assert!(!host_live(8, 2_000, [5, 2, 1, 1, 0, 1, 8, 0, 5_000, 0]));
    assert!(!host_live(8, 2_000, [5, 2, 1, 1, 0, 1, 8, 1, 0, 0]));
    assert!(host_live(8, 2_000, [6, 2, 1, 1, 0, 1, 8, 0, 999, 0]));
    assert!(!host_live(8, 2_000, [7, 2, 1, 1, 0, 1, 8, 0, 0, 0]));
    assert!(!host_live(6, 4, [2, 3, 4, 4, 1, 1, 0, 0, 0, 0]));
    assert!(host_live(262_140, 4, [6, 2, 1, 1, 0, 1, 4, 0, 0, 0]));
    assert!(!host_live(262_140, 4, [6, 2, 1, 1, 0, 1, 3, 0, 0, 0]));
}

#[test]
fn unknown_choices_end_the_host() {
    let (mut count, mut out) = (9, [5; 64]);
    for (first, start, same) in [(0, 0, 0), (6, 0, 0), (1, 2, 0), (1, 0, 2)] {
        let mut state = vec![7; 60];
        let answer = flat::host_open(&mut state, 9, &[0; 3], first, 4, start, same, &mut out, &mut count);
        assert_eq!((answer, count), (flat::UNKNOWN, 0));
        assert_eq!(state, [record(&[3, 0], &[0; 10]), vec![7; 4]].concat());
    }
    assert_eq!(flat::host_open(&mut [0; 55], 9, &[0; 3], 9, 4, 9, 9, &mut out, &mut count), 2);
}
