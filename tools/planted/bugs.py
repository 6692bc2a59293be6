"""Bugs to plant, one at a time, in code that is proved: crate, file, old text, new text, what it does.

They differ from the must-fail edits of the crates, which the gate tries.
"""

BUGS = [
    # task files
    ("fields", "src/tag.rt", "Tag::Header => length == 6,", "Tag::Header => length >= 6,", "a header may be longer"),
    ("fields", "src/tag.rt", "3 => Ok(Tag::Evicting)", "3 => Ok(Tag::Point)", "the tag of evicting blocks read as a point"),
    ("fields", "src/tag.rt", "4 => Ok(Tag::End)", "5 => Ok(Tag::End)", "another tag ends the file"),
    ("taskfile", "src/step.rt", "if !draft.evicting().is_empty() {", "if draft.points().is_empty() {", "points wanted before points"),
    ("taskfile", "src/step.rt", "[0, successors @ ..] => Point::new(None, successors)", "[0, _, successors @ ..] => Point::new(None, successors)", "the first successor dropped"),
    ("taskfile", "src/step.rt", "draft.add_evicting(u32::from_be_bytes(body.try_into().unwrap()))?;", "let [a, b, c, d]: [u8; 4] = body.try_into().unwrap();\n    draft.add_evicting(u32::from_be_bytes([b, a, c, d]))?;", "two bytes of a block swapped"),
    ("taskfile", "src/read.rt", "CacheParameters { sets, ways, reload }", "CacheParameters { sets: ways, ways, reload }", "ways taken for sets"),
    ("taskfile", "src/read.rt", "place += rest.len() - taken.after.len();", "place += rest.len() - taken.after.len() + 1;", "places one too far"),
    ("taskfile", "src/write.rt", "put(&[Tag::Point as u8, 0, 5 + successors, 1, a, b, c, d], out)", "put(&[Tag::Point as u8, 0, 4 + successors, 1, a, b, c, d], out)", "a length written one too small"),
    ("taskfile", "src/sizes.rt", "map_or(1, |_| 5)", "map_or(2, |_| 5)", "the size of a bare point one too large"),
    ("taskfile", "src/write.rt", "let at = put_all(blocks, out);", "let at = 0;\n    for block in blocks {\n        block.put_field(&mut out[at..]);\n    }", "evicting blocks written over each other"),
    # tasks
    ("task", "src/draft/methods.rt", "cache.reload <= 1_000_000", "cache.reload < 1_000_000", "the largest reload time refused"),
    ("task", "src/draft/methods.rt", "const MAX_EVICTING: usize = 64;", "const MAX_EVICTING: usize = 63;", "one evicting block too few"),
    ("task", "src/draft/methods.rt", "is_none_or(|last| *last < block)", "is_none_or(|last| block >= *last)", "an evicting block twice"),
    ("task", "src/draft/methods.rt", "if blocks.contains(&block) {\n        return Ok(());\n    }\n", "", "a block noted at each access"),
    ("task", "src/task/methods.rt", "block as usize % self.parameters().sets as usize", "block as usize % self.parameters().ways as usize", "the set of a block by ways"),
    # caches
    ("cache", "src/block_list/methods.rt", "        carry = next;\n", "", "the first block copied down the list"),
    ("cache", "src/block_list/methods.rt", "if self.blocks.len() < ways as usize {", "if self.blocks.len() + 1 < ways as usize {", "one way never filled"),
    ("cache", "src/block_list/methods.rt", "if self.contains(block) {\n            return Outcome::Hit;\n        }\n", "", "FIFO reorders at a hit"),
    ("cache", "src/lru.rt", "list.touch(ways, block)", "Outcome::from(list.contains(block))", "an access that is forgotten"),
    ("cache", "src/list_cache/methods.rt", "(1..=8).contains(&ways)", "(1..8).contains(&ways)", "8 ways refused"),
    ("plru", "src/tree.rt", "mask: 0b0010_0110, // way 2\n        value: 0b0010_0010,", "mask: 0b0010_0110, // way 2\n        value: 0b0010_0110,", "one bit of the table of 8 ways"),
    ("plru", "src/tree.rt", "mask: 0b1010, // way 3", "mask: 0b0110, // way 3", "one mask of the table of 4 ways"),
    ("plru", "src/tree.rt", "(bits & !path.mask) | path.value", "bits | path.value", "bits that are never cleared"),
    ("plru", "src/set/methods.rt", "if let Some(way) = self.way_of(block) {\n            self.bits = tree.touch(self.bits, way as u8);\n", "if let Some(_) = self.way_of(block) {\n", "a hit that leaves the bits"),
    ("plru", "src/set/methods.rt", "if way < tree.ways {", "if way + 1 < tree.ways {", "the last way filled by the bits"),
    # solver and rows
    ("fixpoint", "src/solve.rt", "let mut all = self.kind.start();", "let mut all = rows[p];", "the merge begins from the old row"),
    ("fixpoint", "src/solve.rt", "changed |= !kept;", "changed = !kept;", "only the last point of a round counts as changed"),
    ("fixpoint", "src/solve.rt", "Direction::Backward => self.points[p].leads_to(q)", "Direction::Backward => self.points[q].leads_to(p)", "a backward table over predecessors"),
    ("rowkinds", "src/ages/kind.rt", "grow(self.ways, near, row.ages[b], row.ages[i])", "grow(self.ways, near, self.ways, row.ages[i])", "all blocks of the set grow older"),
    ("widest", "src/next_uses/kind.rt", "Some(access) if access.block < self.blocks as usize => {", "Some(access) if access.block < self.blocks as usize && access.conflicts.is_some() => {", "an access without count keeps the old one"),
    ("blocksets", "src/lib.rt", "mask: self.mask | 1 << block", "mask: self.mask ^ 1 << block", "a block added twice is gone"),
    ("conflicts", "src/kind.rt", "(true, None) => None", "(true, None) => Some(BlockSet::empty())", "a block never accessed gets a set"),
    # the analysis
    ("numbers", "src/view.rt", "self.is_useful(ways, i) && self.is_reached(ways, evicting, i)", "self.is_reached(ways, evicting, i)", "resilience without usefulness"),
    ("numbers", "src/lib.rt", "if_evicting(evicting[s], reached[s].min(ways))", "if_evicting(evicting[s], useful[s].min(ways))", "resilient numbers as combined"),
    ("tables", "src/methods.rt", "let note = task.block_index(p);", "let note = task.block_index(0);", "the note of the first point"),
    ("tables", "src/methods.rt", "let uses = use_notes(&self.conflicts, &notes);", "let uses = use_notes(&self.conflicts, &[None; 128]);", "no point has a next use"),
    ("analysis", "src/lib.rt", "    fill(task, tables, records);\n", "", "the sheet is not filled"),
    # the bench
    ("bench", "src/actions.rt", "self.counts.plain += loads(self.plain.load(block));", "self.counts.plain += loads(outcome);", "plain loads as the cache's loads"),
    ("bench", "src/actions.rt", "self.state = State::Ended;", "", "a finish that does not end"),
    ("bench", "src/actions.rt", "self.counts.interruptions += 1;", "", "interruptions are not counted"),
    ("bench", "src/setup.rt", "if self.sets != parameters.sets {\n            return Err(BenchFault::OtherSets);\n        }\n", "", "other sets are let through"),
    ("bench", "src/setup.rt", "if self.room < self.task.points().len() {", "if self.room <= self.task.points().len() {", "tables of just the points refused"),
    ("bench", "src/actions.rt", "if !self.here().leads_to(to) {", "if !self.here().successors().iter().any(|s| *s as usize >= to) {", "a step past the successors"),
    ("bench", "src/keeping.rt", "map_or(0, |numbers| numbers.resilient)", "map_or(0, |numbers| numbers.combined)", "combined numbers charged"),
    ("bench", "src/methods.rt", "life: cache.life(),", "life: task.parameters().ways,", "the life of the cache taken for granted"),
    ("replaying", "src/play.rt", "let counts = bench.read();\n", "let counts = bench.read();\n        let _ = bench.interrupt();\n", "an interruption after each call"),
    # text
    ("sheettext", "src/lib.rt", "let cost = u64::from(largest) * u64::from(reload);", "let cost = u64::from(largest) + u64::from(reload);", "the cost as a sum"),
    ("runtext", "src/hex.rt", "match high {\n            None => high = Some(digit),", "let digit = if *c >= b'a' && digit > 9 { digit - 1 } else { digit };\n        match high {\n            None => high = Some(digit),", "hexadecimal letters one too low"),
    ("runtext", "src/calls.rt", "line.strip_prefix(\"touch \")", "line.strip_prefix(\"touc \")", "a touch that is not understood"),
    ("answer", "src/lib.rt", "refusal_line(heap, fault)?", "String::from_str(heap, \"refused\\n\")?", "a refusal without its number"),
]
