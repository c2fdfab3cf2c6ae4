//! Mixed calls on maps, also as values. A word holds a command in its low byte and a key above it.
use vecmap::VecMap;

fn of_value(value: Option<u64>) -> u64 {
    match value {
        Some(value) => value,
        None => 1,
    }
}

pub fn of_index(place: Option<usize>) -> u64 {
    match place {
        Some(place) => place as u64,
        None => 2,
    }
}

#[inline(never)]
pub fn calls(_: &[u64], words: &[u64], rounds: u64) -> u64 {
    rounds!(rounds, |sum, round| {
        let mut map: VecMap<u64, u64> = VecMap::new();
        for word in words {
            let word = *word;
            let key = word >> 8;
            let answer = match word & 255 {
                0..=29 => of_value(map.insert(key, word)),
                30..=69 => of_value(map.get(&key).copied()),
                70..=84 => of_index(map.get_index_of(&key)),
                85..=88 => map.len() as u64,
                89..=98 => of_value(map.remove(&key)),
                _ => map.to_vec().len() as u64,
            };
            sum = sum.wrapping_mul(31).wrapping_add(answer ^ round);
        }
    })
}

/// Calls on a map, as values, as `vecmap::MapCommand` has them.
#[allow(dead_code)]
enum MapCommand<K, V> {
    Insert(K, V),
    InsertFull(K, V),
    InsertAt(usize, K, V),
    InsertKey(K, V),
    OrInsert(K, V),
    Get(K),
    GetIndex(usize),
    IndexOf(K),
    ContainsKey(K),
    First,
    Last,
    Len,
    Remove(K),
    RemoveEntry(K),
    SwapRemove(K),
    SwapRemoveEntry(K),
    RemoveIndex(usize),
    SwapRemoveIndex(usize),
    Pop,
    SwapIndices(usize, usize),
    Truncate(usize),
    Clear,
    Reverse,
    Append(VecMap<K, V>),
    SplitOff(usize),
    ToVec,
    Equals(VecMap<K, V>),
}

/// Replies, as `vecmap::MapReply` has them.
#[allow(dead_code)]
enum MapReply<K, V> {
    Value(Option<V>),
    Full(usize, Option<V>),
    Moved(Option<(usize, V)>),
    Kept(usize, bool),
    Pair(Option<(K, V)>),
    Place(Option<usize>),
    Truth(bool),
    Number(usize),
    Done,
    Rest(VecMap<K, V>),
    Pairs(Vec<(K, V)>),
    OutOfRange,
    NoMemory,
}

fn pair<K: Clone, V: Clone>(pair: Option<(&K, &V)>) -> MapReply<K, V> {
    MapReply::Pair(pair.map(|(key, value)| (key.clone(), value.clone())))
}

fn step<K: Eq + Clone, V: Eq + Clone>(
    map: &mut VecMap<K, V>,
    command: MapCommand<K, V>,
) -> MapReply<K, V> {
    match command {
        MapCommand::Insert(key, value) => MapReply::Value(map.insert(key, value)),
        MapCommand::InsertFull(key, value) => {
            let (place, old) = map.insert_full(key, value);
            MapReply::Full(place, old)
        }
        MapCommand::InsertAt(index, key, value) => {
            if index > map.len() {
                return MapReply::OutOfRange;
            }
            MapReply::Moved(map.insert_at(index, key, value))
        }
        MapCommand::InsertKey(key, value) => {
            let old = map.remove_entry(&key);
            map.insert(key, value);
            MapReply::Value(old.map(|(_, value)| value))
        }
        MapCommand::OrInsert(key, value) => {
            let is_new = !map.contains_key(&key);
            map.entry(key).or_insert(value);
            MapReply::Kept(map.len(), is_new)
        }
        MapCommand::Get(key) => MapReply::Value(map.get(&key).cloned()),
        MapCommand::GetIndex(index) => pair(map.get_index(index)),
        MapCommand::IndexOf(key) => MapReply::Place(map.get_index_of(&key)),
        MapCommand::ContainsKey(key) => MapReply::Truth(map.contains_key(&key)),
        MapCommand::First => pair(map.first()),
        MapCommand::Last => pair(map.last()),
        MapCommand::Len => MapReply::Number(map.len()),
        MapCommand::Remove(key) => MapReply::Value(map.remove(&key)),
        MapCommand::RemoveEntry(key) => MapReply::Pair(map.remove_entry(&key)),
        MapCommand::SwapRemove(key) => MapReply::Value(map.swap_remove(&key)),
        MapCommand::SwapRemoveEntry(key) => MapReply::Pair(map.swap_remove_entry(&key)),
        MapCommand::RemoveIndex(index) => {
            let is_within = index < map.len();
            MapReply::Pair(is_within.then(|| map.remove_index(index)))
        }
        MapCommand::SwapRemoveIndex(index) => {
            let is_within = index < map.len();
            MapReply::Pair(is_within.then(|| map.swap_remove_index(index)))
        }
        MapCommand::Pop => MapReply::Pair(map.pop()),
        MapCommand::SwapIndices(a, b) => {
            if a >= map.len() || b >= map.len() {
                return MapReply::OutOfRange;
            }
            map.swap_indices(a, b);
            MapReply::Done
        }
        MapCommand::Truncate(len) => {
            map.truncate(len);
            MapReply::Done
        }
        MapCommand::Clear => {
            map.clear();
            MapReply::Done
        }
        MapCommand::Reverse => {
            map.reverse();
            MapReply::Done
        }
        MapCommand::Append(mut other) => {
            map.append(&mut other);
            MapReply::Done
        }
        MapCommand::SplitOff(index) => {
            if index > map.len() {
                return MapReply::OutOfRange;
            }
            MapReply::Rest(map.split_off(index))
        }
        MapCommand::ToVec => MapReply::Pairs(map.to_vec()),
        MapCommand::Equals(other) => MapReply::Truth(*map == other),
    }
}

// Runs the commands in order and returns their replies.
fn replies_to<K: Eq + Clone, V: Eq + Clone>(
    map: &mut VecMap<K, V>,
    commands: Vec<MapCommand<K, V>>,
) -> Vec<MapReply<K, V>> {
    let mut replies = Vec::with_capacity(commands.len());
    for command in commands {
        replies.push(step(map, command));
    }
    replies
}

fn command(word: u64) -> MapCommand<u64, u64> {
    let key = word >> 8;
    match word & 255 {
        0..=29 => MapCommand::Insert(key, word),
        30..=69 => MapCommand::Get(key),
        70..=84 => MapCommand::IndexOf(key),
        85..=88 => MapCommand::Len,
        89..=98 => MapCommand::Remove(key),
        _ => MapCommand::ToVec,
    }
}

fn of_reply(reply: &MapReply<u64, u64>) -> u64 {
    match reply {
        MapReply::Value(value) => of_value(*value),
        MapReply::Place(place) => of_index(*place),
        MapReply::Number(n) => *n as u64,
        MapReply::Pairs(pairs) => pairs.len() as u64,
        _ => u64::MAX,
    }
}

#[inline(never)]
pub fn run(_: &[u64], words: &[u64], rounds: u64) -> u64 {
    rounds!(rounds, |sum, round| {
        let mut map: VecMap<u64, u64> = VecMap::new();
        let mut commands = Vec::with_capacity(words.len());
        for word in words {
            commands.push(command(*word));
        }
        let replies = replies_to(&mut map, commands);
        for reply in replies.iter() {
            sum = sum.wrapping_mul(31).wrapping_add(of_reply(reply) ^ round);
        }
    })
}
