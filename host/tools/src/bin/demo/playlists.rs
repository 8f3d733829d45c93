//! The playlists with their tracks.

use crate::options::Options;
use crate::printable;
use crate::tracks::Tracks;
use sarvoltig::{Intake, Record, Refusal, Table};
use sarvoltig_tools::failure::Failure;
use std::collections::{HashMap, HashSet};
use std::io::Write;

/// Prints the playlists with their tracks, at most so many of each, folders opened out.
pub fn print(intake: &Intake, options: &Options, out: &mut impl Write) -> Result<(), Failure> {
    let most = options.tracks;
    let (nodes, entries) = (nodes(intake)?, entries(intake)?);
    let tracks = Tracks::read(intake, options.artists)?;
    for (level, node) in menu(&nodes) {
        let mark = if node.folder { "/" } else { "" };
        writeln!(out, "{}{}{mark}", "  ".repeat(level), node.name)?;
        let margin = "  ".repeat(level + 1);
        let list = entries
            .get(&node.id)
            .filter(|_| !node.folder)
            .map_or(&[][..], Vec::as_slice);
        for line in tracks.lines(&list[..list.len().min(most)]) {
            writeln!(out, "{margin}{line}")?;
        }
        if list.len() > most {
            let more = list.len() - most;
            let hint = "--tracks N lists N of each";
            writeln!(out, "{margin}      and {more} more ({hint})")?;
        }
    }
    Ok(())
}

/// A node of the playlist tree.
struct Node {
    parent: u32,
    order: u32,
    id: u32,
    folder: bool,
    name: String,
}

fn nodes(intake: &Intake) -> Result<Vec<Node>, Refusal> {
    let mut nodes = Vec::new();
    for row in &intake.rows(Table::PlaylistTree)? {
        if let Record::PlaylistNode {
            parent_id,
            sort_order,
            id,
            raw_is_folder,
        } = row.record()?
        {
            let name = printable(row.text(0)?);
            nodes.push(Node {
                parent: parent_id,
                order: sort_order,
                id,
                folder: raw_is_folder != 0,
                name,
            });
        }
    }
    nodes.sort_by_key(|node| (node.order, node.id));
    Ok(nodes)
}

/// The nodes in the order of the menu, each with its level. A folder is opened once, whatever the file says.
fn menu(nodes: &[Node]) -> Vec<(usize, &Node)> {
    let mut opened = HashSet::from([0]);
    let mut menu = Vec::new();
    let mut open = vec![(0, 0, 0)];
    while let Some((parent, level, from)) = open.pop() {
        let next = nodes[from..].iter().position(|node| node.parent == parent);
        let Some(at) = next.map(|at| from + at) else {
            continue;
        };
        open.push((parent, level, at + 1));
        menu.push((level, &nodes[at]));
        if nodes[at].folder && opened.insert(nodes[at].id) {
            open.push((nodes[at].id, level + 1, 0));
        }
    }
    menu
}

/// The tracks of each playlist in their order, by id.
fn entries(intake: &Intake) -> Result<HashMap<u32, Vec<(u32, u32)>>, Refusal> {
    let mut lists: HashMap<u32, Vec<(u32, u32)>> = HashMap::new();
    for row in &intake.rows(Table::PlaylistEntries)? {
        if let Record::PlaylistEntry {
            entry_index,
            track_id,
            playlist_id,
        } = row.record()?
        {
            let list = lists.entry(playlist_id).or_default();
            list.push((entry_index, track_id));
        }
    }
    lists.values_mut().for_each(|list| list.sort_unstable());
    Ok(lists)
}
