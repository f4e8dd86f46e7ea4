//! The depth report.

use field_model::depth::depth;
use field_model::table::{Directory, Remote, Table};

fn with_parents(parents: &[(u8, u8)]) -> Table {
    let mut table = Table::fresh();
    for (node, parent) in parents {
        let remote = Remote { rc: 0, parent: *parent, presence: true, msg_ctr: 0, ref_weight: 1 };
        table.remotes.insert((*node, 0), remote);
    }
    table.directories.insert(0, Directory { rc: 1, msg_ctr: 0 });
    table
}

#[test]
fn a_chain_through_all_nodes_is_seven_deep() {
    let table = with_parents(&[(1, 0), (2, 1), (3, 2), (4, 3), (5, 4), (6, 5), (7, 6)]);
    for node in 0..8 {
        assert_eq!(depth(&table, node, 0), node);
    }
}

#[test]
fn a_ring_a_gap_and_a_missing_directory_have_no_depth() {
    let mut table = with_parents(&[(1, 2), (2, 1), (3, 4), (5, 0)]);
    assert_eq!([1, 2, 3, 4, 5].map(|node| depth(&table, node, 0)), [255, 255, 255, 255, 1]);
    table.directories.clear();
    assert_eq!([0, 5].map(|node| depth(&table, node, 0)), [255, 255]);
}

#[test]
fn numbers_out_of_range_have_no_depth() {
    let table = with_parents(&[(1, 0)]);
    assert_eq!([depth(&table, 8, 0), depth(&table, 0, 64), depth(&table, 255, 255)], [255; 3]);
}

#[test]
fn a_table_out_of_shape_has_no_depths() {
    let mut table = with_parents(&[(1, 0)]);
    table.set_root(7, 7, Some(64));
    assert_eq!([depth(&table, 0, 0), depth(&table, 1, 0)], [255; 2]);
}
