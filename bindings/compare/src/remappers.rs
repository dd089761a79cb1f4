//! Every method of both remappers, on the same lists.
use std::collections::hash_map::DefaultHasher;
use std::hash::{Hash, Hasher};
use std::panic::catch_unwind;

/// A plain generator: the lists are the same in every run.
pub struct Draw(pub u64);

impl Draw {
    pub fn below(&mut self, limit: usize) -> usize {
        self.0 = self.0.wrapping_mul(6_364_136_223_846_793_005).wrapping_add(1_442_695_040_888_963_407);
        (self.0 >> 33) as usize % limit
    }
}

fn hash(value: &impl Hash) -> u64 {
    let mut hasher = DefaultHasher::new();
    value.hash(&mut hasher);
    hasher.finish()
}

fn same(ours: &pitavele::GlyphRemapper, theirs: &subsetter::GlyphRemapper) -> usize {
    assert_eq!(ours.num_gids(), theirs.num_gids());
    assert!(ours.remapped_gids().eq(theirs.remapped_gids()));
    assert_eq!(hash(ours), hash(theirs));
    for old in 0..=u16::MAX {
        assert_eq!(ours.get(old), theirs.get(old), "get({old})");
    }
    65_539
}

fn lists() -> Vec<Vec<u16>> {
    let mut draw = Draw(1);
    let mut lists = vec![vec![], vec![0], vec![65_535], vec![3, 39, 8, 3, 10, 2], vec![0, 0, 5, 0]];
    for limit in [10, 1_000, 65_536] {
        for count in [1, 20, 5_000] {
            lists.push((0..count).map(|_| draw.below(limit) as u16).collect());
        }
    }
    lists.push((0..65_535).collect());
    lists
}

/// The number of calls compared.
pub fn compare() -> usize {
    let mut calls = 0;
    for list in lists() {
        let (mut ours, mut theirs) = (pitavele::GlyphRemapper::new(), subsetter::GlyphRemapper::new());
        for &old in &list {
            assert_eq!(ours.remap(old), theirs.remap(old), "remap({old})");
            calls += 1;
        }
        calls += same(&ours, &theirs);
        let (all, all_theirs) = (
            pitavele::GlyphRemapper::new_from_glyphs(&list),
            subsetter::GlyphRemapper::new_from_glyphs(&list),
        );
        calls += same(&all, &all_theirs);
        assert!(all == ours && ours.clone() == ours);
        let (up, up_theirs) = (
            pitavele::GlyphRemapper::new_from_glyphs_sorted(&list),
            subsetter::GlyphRemapper::new_from_glyphs_sorted(&list),
        );
        calls += same(&up, &up_theirs);
        assert_eq!(up == ours, up_theirs == theirs);
        assert_eq!(ours == pitavele::GlyphRemapper::default(), theirs == subsetter::GlyphRemapper::default());
    }
    calls + overflow()
}

/// The 65,536th id.
fn overflow() -> usize {
    let all: Vec<u16> = (0..=u16::MAX).collect();
    let ours = catch_unwind(|| pitavele::GlyphRemapper::new_from_glyphs(&all)).unwrap_err();
    let theirs = catch_unwind(|| subsetter::GlyphRemapper::new_from_glyphs(&all)).unwrap_err();
    let text =
        |panic: Box<dyn std::any::Any + Send>| panic.downcast_ref::<&str>().map(|text| text.to_string());
    assert_eq!(text(ours), text(theirs));
    1
}
