//! Offers to the store: document 01's cases, each refusal, the order of the refusals, and what is left.
use denkumari::{NoneStored, NotStored, Store};

fn holding(intervals: &[(u64, u64)]) -> Store {
    let mut store = Store::new();
    for &(position, size) in intervals {
        store.offer(position, size).unwrap();
    }
    store
}

fn listed(store: &Store) -> Vec<(u64, u64)> {
    store.intervals().collect()
}

#[test]
fn cases() {
    let mut store = holding(&[(0, 8), (8, 8)]);
    assert_eq!(store.offer(7, 1), Err(NotStored::Overlap { start: 0, size: 8 }));
    let mut store = holding(&[(0, 8)]);
    assert_eq!(store.offer(0, 0), Ok(()));
    assert_eq!(store.offer(4, 4), Err(NotStored::Overlap { start: 0, size: 8 }));
    assert_eq!(listed(&store), [(0, 8)]);
}

#[test]
fn kept_in_order() {
    assert_eq!(listed(&holding(&[(20, 5), (0, 10), (10, 10), (25, 1)])), [(0, 10), (10, 10), (20, 5), (25, 1)]);
}

#[test]
fn who_is_named() {
    let mut store = holding(&[(0, 10), (20, 10)]);
    assert_eq!(store.offer(5, 20), Err(NotStored::Overlap { start: 20, size: 10 }));
    assert_eq!(store.offer(5, 10), Err(NotStored::Overlap { start: 0, size: 10 }));
    assert_eq!(store.offer(5, 0), Err(NotStored::Overlap { start: 0, size: 10 }));
    assert_eq!(store.offer(20, 0), Ok(()));
    assert_eq!(listed(&store), [(0, 10), (20, 10)]);
}

#[test]
fn full() {
    let mut store = Store::new();
    for i in 0..512 {
        store.offer(2 * i, 1).unwrap();
    }
    assert_eq!(store.offer(1, 1), Err(NotStored::Full));
    assert_eq!(store.offer(1, 2), Err(NotStored::Overlap { start: 2, size: 1 }));
    assert_eq!(store.offer(1, 0), Ok(()));
    assert_eq!(store.count, 512);
}

#[test]
fn marks() {
    let mut store = holding(&[(8, 0), (4, 0), (8, 0), (0, 4)]);
    assert_eq!(store.marks().collect::<Vec<_>>(), [4, 8, 8]);
    assert_eq!(store.offer(3, 6), Err(NotStored::Overlap { start: 0, size: 4 }));
    assert_eq!(store.offer(4, 6), Err(NotStored::Overlap { start: 8, size: 0 }));
    assert_eq!(store.offer(4, 4), Ok(()));
    assert_eq!(store.offer(8, 4), Ok(()));
    assert_eq!(store.offer(9, 0), Err(NotStored::Overlap { start: 8, size: 4 }));
    let mut store = holding(&[(4, 0), (8, 0)]);
    assert_eq!(store.offer(3, 6), Err(NotStored::Overlap { start: 4, size: 0 }));
    let mut store = holding(&[(0, 8)]);
    for _ in 0..512 {
        store.offer(8, 0).unwrap();
    }
    assert_eq!(store.offer(8, 0), Err(NotStored::Full));
    assert_eq!(store.offer(4, 0), Err(NotStored::Overlap { start: 0, size: 8 }));
    assert_eq!(store.offer(8, 1), Ok(()));
    store.marks[2] = 7;
    assert_eq!(store.offer(u64::MAX, 1), Err(NotStored::BadStore { entry: 2 }));
    store.sizes[1] = 0;
    assert_eq!(store.offer(u64::MAX, 1), Err(NotStored::BadStore { entry: 1 }));
    store.mark_count = 513;
    assert_eq!(store.offer(u64::MAX, 1), Err(NotStored::BadStore { entry: 512 }));
}

#[test]
fn whatever_lies_past_the_count() {
    let mut store = Store { positions: [u64::MAX; 512], sizes: [7; 512], count: 0, marks: [9; 512], mark_count: 0 };
    store.offer(3, 4).unwrap();
    store.offer(3, 0).unwrap();
    assert_eq!((listed(&store), store.positions[1], store.sizes[1]), (vec![(3, 4)], u64::MAX, 7));
    assert_eq!((store.mark_count, store.marks[0], store.marks[1]), (1, 3, 9));
}

#[test]
fn faults_and_limits() {
    let mut store = holding(&[(0, 8), (8, 8)]);
    assert_eq!(store.offer(8_589_934_591, 1), Err(NotStored::Malformed));
    assert_eq!(store.offer(0, 4_294_967_296), Err(NotStored::Malformed));
    assert_eq!(store.offer(8_589_934_590, 4_294_967_295), Ok(()));
    store.positions[1] = 7;
    assert_eq!(store.offer(u64::MAX, u64::MAX), Err(NotStored::BadStore { entry: 1 }));
    store.count = 513;
    let before = store.clone();
    assert_eq!(store.offer(0, 1), Err(NotStored::BadStore { entry: 512 }));
    assert_eq!((store.positions, store.sizes, store.count), (before.positions, before.sizes, 513));
}

fn whole(store: &Store) -> ([u64; 512], [u64; 512], u64, [u64; 512], u64) {
    (store.positions, store.sizes, store.count, store.marks, store.mark_count)
}

#[test]
fn all_or_none() {
    let mut store = Store { positions: [7; 512], sizes: [7; 512], count: 0, marks: [7; 512], mark_count: 0 };
    assert_eq!(store.offer_all(&[], &[]), Ok(()));
    assert_eq!(store.offer_all(&[20, 0, 10, 5], &[5, 5, 10, 0]), Ok(()));
    assert_eq!((listed(&store), store.marks().collect::<Vec<_>>()), (vec![(0, 5), (10, 10), (20, 5)], vec![5]));
    let before = whole(&store);
    let refused: [(&[u64], &[u64], u64, NotStored); 6] = [
        (&[30, 31], &[2, 2], 1, NotStored::Overlap { start: 30, size: 2 }),
        (&[30, 4, u64::MAX], &[2, 4, 1], 1, NotStored::Overlap { start: 0, size: 5 }),
        (&[30, u64::MAX, 4], &[2, 4, 1], 1, NotStored::Malformed),
        (&[30, 40], &[2], 1, NotStored::Malformed),
        (&[30], &[2, 2, 2], 1, NotStored::Malformed),
        (&[0; 600], &[0; 600], 511, NotStored::Full),
    ];
    for (positions, sizes, offer, why) in refused {
        assert_eq!(store.offer_all(positions, sizes), Err(NoneStored { offer, why }));
        assert_eq!(whole(&store), before);
    }
    store.sizes[2] = 0;
    assert_eq!(store.offer_all(&[], &[1]), Err(NoneStored { offer: 0, why: NotStored::BadStore { entry: 2 } }));
    assert_eq!(
        NoneStored { offer: 3, why: NotStored::Full }.to_string(),
        "offer 3: refused 13: 512 intervals, or marks, are stored already"
    );
}

/// Drawn lists beside the single call, one after the other on a copy.
#[test]
fn as_single_calls() {
    let mut seed = 7u64;
    let mut draw = |below: u64| {
        seed = seed.wrapping_mul(6_364_136_223_846_793_005).wrapping_add(1_442_695_040_888_963_407);
        (seed >> 33) % below
    };
    let (mut kept, mut refused) = (0, 0);
    for _ in 0..2000 {
        let mut store = holding(&[(100, 4), (104, 4), (120, 8)]);
        let count = draw(6) as usize;
        let positions: Vec<u64> = (0..count).map(|_| draw(200)).collect();
        let sizes: Vec<u64> = (0..count).map(|_| draw(7)).collect();
        let (before, mut single) = (whole(&store), store.clone());
        let first = positions
            .iter()
            .zip(&sizes)
            .enumerate()
            .find_map(|(i, (&p, &z))| single.offer(p, z).err().map(|why| NoneStored { offer: i as u64, why }));
        assert_eq!(store.offer_all(&positions, &sizes).err(), first);
        assert_eq!(whole(&store), if first.is_some() { before } else { whole(&single) });
        *(if first.is_some() { &mut refused } else { &mut kept }) += 1;
    }
    assert!(kept > 200 && refused > 200);
}
