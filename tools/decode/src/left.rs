//! The left links of working leaves (02, U5). They are not stored and no record has them: a restart works them out after redo,
//! and from then on each change of the leaves keeps them. "Setting it leaves the page's log number."

use crate::layout::{Kind, Pages, Record};

/// Each leaf of the tree with the leaf whose right link leads to it, 0 for the first. The pages obey the tree rules, so that
/// the used leaves are those of the tree.
fn left_links(pages: &Pages) -> Vec<(usize, usize)> {
    let leaves = || (0..pages.count()).filter(|page| pages.map.is_used(*page) && pages.list[*page].is_leaf());
    let mut left_of = vec![0; pages.count()];
    for leaf in leaves() {
        // The last leaf's right link, 0, leads to the map, which is no leaf.
        if let Some(left) = left_of.get_mut(pages.list[leaf].right) {
            *left = leaf;
        }
    }
    leaves().map(|leaf| (leaf, left_of[leaf])).collect()
}

/// Give every leaf of the tree its left link. Leaves that are not in it stay as they are.
pub fn link_leaves(pages: &mut Pages) {
    for (leaf, left) in left_links(pages) {
        pages.list[leaf].left = left;
    }
}

/// "Left and right links agree." Leaves that are not in the tree are not judged.
pub fn left_links_agree(pages: &Pages) -> bool {
    left_links(pages).into_iter().all(|(leaf, left)| pages.list[leaf].left == left)
}

/// The left links that change with a record: a split's new leaf gets one, and so does the leaf that comes to stand after
/// another one by a split, a merge or a raise.
pub(crate) fn link_after(pages: &mut Pages, record: &Record) {
    match record.kind {
        Kind::Split => {
            set_left(pages, record.b, record.a);
            set_left(pages, record.right, record.b);
        }
        Kind::Merge => set_left(pages, record.right, record.a),
        Kind::Raise => set_left(pages, record.b, record.c),
        _ => {}
    }
}

/// Index pages have no left link, and neither has the map, to which the right link of a level's last page leads.
fn set_left(pages: &mut Pages, page: usize, left: usize) {
    if pages.list[page].is_leaf() {
        pages.list[page].left = left;
    }
}
