#!/usr/bin/env python3
"""Tries the lockstep test on wrong libraries: the model with one line changed, behind the
C interface (fake/lib.rs). Each must be found. Run from this folder: ./mutants.py [names]"""
import os, re, subprocess, sys, shutil

W = 'target/mutants'
os.makedirs(W, exist_ok=True)
MODEL = open('src/model.rs').read().split('#[cfg(test)]\nmod tests')[0]
FAKE = open('fake/lib.rs').read()
shutil.copy('src/call.rs', W)

# (name, text, text instead[, 'fake' if the text is of fake/lib.rs])
M = [
 ('phone 64', '(self.phone as usize) < PHONES\n', '(self.phone as usize) <= PHONES\n'),
 ('cell 1024 in record', '&& self.cell < CELLS', '&& self.cell <= CELLS'),
 ('number 0', 'number >= 1)', 'number < 999)'),
 ('position 257', 'all(|&p| p <= 256)', 'all(|&p| p <= 257)'),
 ('positions past N free', 'self.t[n as usize..].iter().all(|&p| p == 0)', 'true'),
 # ('origin N' is no mutant: an origin of N has the number T[N], which must be zero)
 ('winner by lower origin', '.sum(), self.origin, self.number())', '.sum(), 255 - self.origin, self.number())'),
 ('winner by number before origin', '(u32, u8, Option<u16>) {\n        (self.t.iter().map(|&p| p as u32).sum(), self.origin, self.number())', '(u32, Option<u16>, u8) {\n        (self.t.iter().map(|&p| p as u32).sum(), self.number(), self.origin)'),
 ('winner by lower number', '.sum(), self.origin, self.number())', '.sum(), self.origin, self.number().map(|n| 999 - n))'),
 ('winner by phone time', '(u32, u8, Option<u16>) {\n        (self.t.iter().map(|&p| p as u32).sum(), self.origin, self.number())', '(u32, u32, u8, Option<u16>) {\n        (self.t.iter().map(|&p| p as u32).sum(), self.time, self.origin, self.number())'),
 ('winner by sum of 11 bits', 'p as u32).sum(), self', 'p as u32).sum::<u32>() & 0x7ff, self'),
 ('winner is the last', 'history.iter().filter(|r| r.cell == cell).max_by_key(|r| r.rank())', 'history.iter().filter(|r| r.cell == cell).last()'),
 ('message of 257', '&& count <= HISTORY_WRITES\n', '\n'),
 ('message offset free', '&& u16_at(bytes, 4) as usize == MESSAGE_HEADER\n', '\n'),
 ('message total free', '&& u16_at(bytes, 6) as usize == bytes.len()\n', '\n'),
 ('message total in 16 bits', 'u16_at(bytes, 6) as usize == bytes.len()\n            && bytes.len() == MESSAGE_HEADER + count * Record::LENGTH', 'u16_at(bytes, 6) as usize == bytes.len() % 65536\n            && bytes.len() % 65536 == MESSAGE_HEADER + count * Record::LENGTH'),
 ('message sender free', 'let well_formed_header = valid_servers(n, sender)', 'let well_formed_header = valid_servers(n, 0)'),
 ('message records unjudged', 'records.iter().all(|r| r.well_formed(n)).then_some', 'records.iter().all(|r| r.origin < n).then_some'),
 ('spare up byte', '1 => faults_up(&state, &records(history, 0, state.held as usize), image),\n        _ => vec![Fault::UpByte],', '_ => faults_up(&state, &records(history, 0, state.held as usize), image),'),
 ('held 257', '1 if state.held as usize > HISTORY_WRITES => vec![Fault::Held]', '1 if state.held as usize > HISTORY_WRITES => vec![]'),
 ('down numbers free', 'faults.push(Fault::DownNumbers);', ''),
 ('down over 256', 'faults.push(Fault::Held);\n        return faults;', 'return faults;'),
 ('down judged by header only', 'for fault in faults_up(&recovered, &history, image) {', 'for fault in faults_up(&recovered, &history, image).into_iter().take(0) {'),
 ('recovery replays every log record', 'if number.is_none_or(|number| number > v[own as usize]) {', 'if true {'),
 ('recovery compares with the checkpoint only, >=', 'number > v[own as usize]) {', 'number >= v[own as usize]) {'),
 ('nWrites zero after recovery', 'let writes = v[own as usize] - own_in_checkpoint;', 'let writes = 0; let _ = own_in_checkpoint;'),
 ('recovery raises V by T', 'v[own as usize] = number.unwrap_or(v[own as usize]);', 'for i in 0..8 { v[i] = v[i].max(record.t[i]); }'),
 ('recovery leaves the rest', 'after.history[..HISTORY].fill(0);\n    for (place', 'for (place'),
 ('recovery zeroes past the size', 'after.history[..HISTORY].fill(0);\n    for (place', 'after.history.fill(0);\n    for (place'),
 ('recovery clears the log', 'let (state, history) = recovered(state.n, state.own, &memory.image);\n    let mut after = memory.clone();', 'let (state, history) = recovered(state.n, state.own, &memory.image);\n    let mut after = memory.clone(); if state.writes == 0 { after.image[6] = 0; }'),
 ('recovery restores nothing', 'let (state, history) = recovered(state.n, state.own, &memory.image);\n    let mut after', 'let (state, history) = (State::fresh(state.n, state.own), Vec::<Record>::new());\n    let mut after'),
 ('state not 9', 'refuse_if(memory.state.len() < STATE || asked.len() < VECTOR, SHORT)?;', 'refuse_if(memory.state.len() < STATE || asked.len() < VECTOR, UNSOUND)?;'),
 ('history 9 only with image', 'self.history.len() < HISTORY || self.image.len() < IMAGE, SHORT', 'self.history.len() < HISTORY && self.image.len() < IMAGE || self.image.len() < IMAGE || self.history.len() < HISTORY && self.state[2] == 1, SHORT'),
 ('6 after 2', 'let state = self.judged()?;\n        refuse_if(state.up == 0, DOWN)?;', 'refuse_if(self.state.len() >= STATE && self.history.len() >= HISTORY && self.image.len() >= IMAGE && self.state[2] == 0, DOWN)?;\n        let state = self.judged()?;'),
 ('log count before its bytes', 'stores.push(Store::Count { at: LOG_COUNT_AT, count: logged + 1 });', 'stores.insert(0, Store::Count { at: LOG_COUNT_AT, count: logged + 1 });'),
 ('log cleared before the checkpoint count', 'stores.push(Store::Count { at: CHECKPOINT_COUNT_AT, count: state.held });\n            stores.push(Store::Count { at: LOG_COUNT_AT, count: 0 });', 'stores.push(Store::Count { at: LOG_COUNT_AT, count: 0 });\n            stores.push(Store::Count { at: CHECKPOINT_COUNT_AT, count: state.held });'),
 ('checkpoint stores the whole history', '.enumerate().skip(done)', '.enumerate().skip(done * 0)'),
 ('log not cleared', 'stores.push(Store::Count { at: LOG_COUNT_AT, count: 0 });', ''),
 ('only the first write is logged', 'stores.push(Store::Count { at: LOG_COUNT_AT, count: logged + 1 });', 'if logged == 0 { stores.push(Store::Count { at: LOG_COUNT_AT, count: logged + 1 }); }'),
 ('second read keeps the phone', 'next.cr = 0;', 'next.cr = 1 << phone;'),
 ('first read leaves RW', 'next.rw[phone as usize] = state.writes;', ''),
 ('CR in 32 bits', 'next.cr |= 1 << phone;', 'next.cr |= 1 << (phone % 32);'),
 ('in CR by the low 5 bits', 'self.cr >> phone & 1 == 1', 'self.cr >> (phone % 32) & 1 == 1'),
 ('log place by V', 'LOG_AT + logged as usize * Record::LENGTH', 'LOG_AT + (state.v[state.own as usize] as usize % 64) * Record::LENGTH'),
 ('value cut to 16 bits', 'winner.map_or(0, |r| r.value)', 'winner.map_or(0, |r| r.value & 0xffff)'),
 ('second read sets RW', '} else if state.rw[phone as usize] > 0 {', '} else if { next.rw[phone as usize] = state.writes; state.rw[phone as usize] > 0 } {'),
 ('checkpoint on any second read with nWrites', '} else if state.rw[phone as usize] > 0 {', '} else if state.writes > 0 {'),
 ('nWrites kept at a checkpoint', 'next.rw = [0; PHONES];\n            next.writes = 0;', 'next.rw = [0; PHONES];'),
 ('reads reply no note', 'let mut reply = vec![winner.is_some() as u8];', 'let winner = winner.filter(|_| false); let mut reply = vec![winner.is_some() as u8];'),
 ('no note is 1 and zero', 'let mut reply = vec![winner.is_some() as u8];', 'let mut reply = vec![1u8];'),
 ('made-up vector', 'reply.extend(vector_bytes(&state.v));', 'reply.extend(vector_bytes(&state.v.map(|p| p.saturating_sub(1))));'),
 ('cut after one fewer', 'refuse_if(k as usize > self.stores.len(), RANGE)?;', 'refuse_if(k as usize >= self.stores.len().max(1), RANGE)?;'),
 ('cut count in 16 bits', 'refuse_if(k as usize > self.stores.len(), RANGE)?;', 'let k = k & 0xffff; refuse_if(k as usize > self.stores.len(), RANGE)?;'),
 ('cut stores one less', 'for store in &self.stores[..k as usize] {', 'for store in &self.stores[..(k as usize).saturating_sub(1)] {'),
 ('cut appends', 'after.put_state(&State::down(self.state.n, self.state.own));', 'if let (29, Some(r)) = (k, &self.appended) { after.put_history(self.state.held as usize - 1, r); } after.put_state(&State::down(self.state.n, self.state.own));'),
 ('server below N is enough', 'refuse_if(server != state.own, RANGE)?;\n    refuse_if(phone', 'refuse_if(server >= state.n, RANGE)?;\n    refuse_if(phone'),
 ('phone 64 in a request', 'phone as usize >= PHONES ||', 'phone as usize > PHONES ||'),
 ('cell 1024 in a request', 'cell >= CELLS || past_n', 'cell > CELLS || past_n'),
 ('vector past N free', 'cell >= CELLS || past_n, RANGE)?;\n    refuse_if((0..SERVERS)', 'cell >= CELLS, RANGE)?;\n    let _ = past_n;\n    refuse_if((0..state.n as usize)'),
 ('vector past N is 3', 'cell >= CELLS || past_n, RANGE)', 'cell >= CELLS || past_n && false, RANGE)'),
 ('3 before 1', 'refuse_if(server != state.own, RANGE)?;\n    refuse_if(phone', 'refuse_if((0..state.n as usize).any(|i| state.v[i] < asked[i]), NOT_YET)?;\n    refuse_if(server != state.own, RANGE)?;\n    refuse_if(phone'),
 ('writes are not tested for 3', 'let state = judged_request(memory, server, write.phone, write.cell, asked)?;', 'refuse_if(asked.len() < VECTOR, SHORT)?; let mut low = asked.to_vec(); for b in low.iter_mut().take(2 * memory.state.get(0).map_or(0, |&n| n.min(8) as usize)) { *b = 0; } let state = judged_request(memory, server, write.phone, write.cell, &low)?;'),
 ('all reads refused', 'Ok(state)\n}\n\n/// The same for a write', 'refuse_if(asked.iter().any(|&b| b != 0), NOT_YET)?; Ok(state)\n}\n\n/// The same for a write'),
 ('5 before 4', 'refuse_if(state.held as usize == HISTORY_WRITES, FULL)?;\n    refuse_if(Header::parse(&memory.image).log_count as usize == LOG_WRITES, LOG_FULL)?;', 'refuse_if(Header::parse(&memory.image).log_count as usize == LOG_WRITES, LOG_FULL)?;\n    refuse_if(state.held as usize == HISTORY_WRITES, FULL)?;'),
 ('4 at 255', 'state.held as usize == HISTORY_WRITES', 'state.held as usize >= HISTORY_WRITES - 1'),
 ('5 at 63', 'log_count as usize == LOG_WRITES', 'log_count as usize >= LOG_WRITES - 1'),
 ('output 9 before 4 and 5', 'let state = judged_write(memory, server, write, asked)?;\n    let step', 'judged_request(memory, server, write.phone, write.cell, asked)?; refuse_if(reply.len() < 16, SHORT)?; let state = judged_write(memory, server, write, asked)?;\n    let step'),
 ('read output one short', 'refuse_if(output.len() < reply.len(), SHORT)?;', 'refuse_if(output.len() < reply.len() || reply.len() == 21 && output.len() == 21, SHORT)?;'),
 ('output zeroed past the reply', 'Ok([reply, &output[reply.len()..]].concat())', 'Ok([reply, &vec![0; output.len() - reply.len()]].concat())'),
 ('refused read enters CR', 'Call::Read { server, phone, cell } => read(memory, server, phone, cell, given, out),', 'Call::Read { server, phone, cell } => match read(memory, server, phone, cell, given, out) { Err(3) => { let mut m = memory.clone(); m.state[24 + phone as usize / 8] |= 1 << (phone % 8); Ok(Left { number: 3, ..Left::memory(m) }) } other => other },'),
 ('start leaves old image bytes', 'after.image[..IMAGE].fill(0);', 'after.image[..LOG_AT].fill(0);'),
 ('start zeroes past the size', 'after.image[..IMAGE].fill(0);', 'after.image.fill(0);'),
 ('start 1 before 9', 'memory.long_enough()?;\n    refuse_if(!valid_servers(n, own), RANGE)?;', 'refuse_if(!valid_servers(n, own), RANGE)?;\n    memory.long_enough()?;'),
 ('update raises V by all of T', 'state.v[origin] = number;\n        new.push(record);', 'for i in 0..8 { state.v[i] = state.v[i].max(record.t[i]); }\n        new.push(record);'),
 ('update takes nothing', 'state.v[origin] = number;\n        new.push(record);', ''),
 ('own ahead is 7', 'refuse_if(record.origin == state.own, OWN_AHEAD)?;', 'refuse_if(record.origin == state.own, GAP)?;'),
 ('own next is taken', 'refuse_if(record.origin == state.own, OWN_AHEAD)?;', 'refuse_if(record.origin == state.own && number > state.v[origin] + 1, OWN_AHEAD)?;'),
 ('a gap is taken', 'refuse_if(number > state.v[origin] + 1, GAP)?;', 'refuse_if(number > state.v[origin] + 2, GAP)?;'),
 ('a gap is skipped', 'refuse_if(number > state.v[origin] + 1, GAP)?;', 'if number > state.v[origin] + 1 { continue; }'),
 ('4 before 7 and 8', 'new.push(record);', 'new.push(record); refuse_if(state.held as usize + new.len() > HISTORY_WRITES, FULL)?;'),
 ('7 before 8', 'let mut new = Vec::new();\n', 'let mut new = Vec::new(); { let mut v = state.v; for r in &message.records { let o = r.origin as usize; if r.origin != state.own && r.t[o] > v[o] + 1 { return Err(GAP); } if r.origin != state.own && r.t[o] > v[o] { v[o] = r.t[o]; } } }\n'),
 ('4 at the 256th', 'refuse_if(state.held as usize + new.len() > HISTORY_WRITES, FULL)?;\n    let mut after', 'refuse_if(state.held as usize + new.len() >= HISTORY_WRITES && !new.is_empty(), FULL)?;\n    let mut after'),
 ('4 by message count', 'let mut new = Vec::new();\n    for record in message.records {', 'let mut new = Vec::new(); let all = message.records.len(); let h0 = state.held as usize;\n    for record in message.records {'),
 ('message N free with none', 'refuse_if(message.n != state.n || message.sender == state.own, UNSOUND)?;', 'refuse_if(message.n != state.n && !message.records.is_empty() || message.sender == state.own, UNSOUND)?;'),
 ('message from receiver is taken', 'refuse_if(message.n != state.n || message.sender == state.own, UNSOUND)?;', 'refuse_if(message.n != state.n, UNSOUND)?;'),
 ('message before server', 'refuse_if(server != state.own, RANGE)?;\n    let message = Message::parse(message).ok_or(UNSOUND)?;', 'let message = Message::parse(message).ok_or(UNSOUND)?;\n    refuse_if(server != state.own, RANGE)?;'),
 ('update stores', 'for record in &new {\n        after.put_history', 'for record in &new {\n        after.image[8975] ^= 1;\n        after.put_history'),
 ('status of none is 64', 'unwrap_or(255)', 'unwrap_or(64)'),
 ('judge of up states only', 'Call::Judge => memory.judged()', 'Call::Judge => memory.judged_up()'),
 ('judge finds all sound', 'Call::Judge => memory.judged()', 'Call::Judge => memory.long_enough()'),
 ('judge of the image alone', 'Call::Judge => memory.judged()', 'Call::Judge => memory.long_enough().and_then(|_| refuse_if(!faults_of_image(&memory.image).is_empty(), UNSOUND))'),
 ('judge without the image', 'Call::Judge => memory.judged()', 'Call::Judge => memory.long_enough().and_then(|_| refuse_if(memory.state[2] > 1 || memory.state[2] == 1 && !faults(&memory.state, &memory.history, &memory.image).is_empty(), UNSOUND))'),
 ('judge 6 before 9', 'Call::Judge => memory.judged()', 'Call::Judge => refuse_if(memory.state.len() >= STATE && memory.state[2] > 1, UNSOUND).and_then(|_| memory.judged())'),
 ('status of the highest', 'phones.first()', 'phones.last()'),
 ('look-up in the log first', 'place(CHECKPOINT_AT, checkpoint(image)).or_else(|| place(LOG_AT, log(image)))', 'place(LOG_AT, log(image)).or_else(|| place(CHECKPOINT_AT, checkpoint(image)))'),
 ('look-up number in 16 bits', 'r.number().map(u32::from) == Some(number)', 'r.number() == Some(number as u16)'),
 ('look-up refuses number 0', 'let sought = |r: &Record|', 'refuse_if(number == 0, RANGE)?;\n    let sought = |r: &Record|'),
 ('look-up of header only', 'refuse_if(!faults_of_image(image).is_empty(), UNSOUND)?;', 'refuse_if(faults_of_image(image).iter().any(|f| *f < Fault::Numbering), UNSOUND)?;'),
 ('look-up past the count', 'place(LOG_AT, log(image))', 'place(LOG_AT, records(image, LOG_AT, 64))'),
 ('look-up in the log past the checkpoint only', 'place(LOG_AT, log(image))', 'place(LOG_AT, log(image).into_iter().filter(|r| r.number().unwrap() as usize > checkpoint(image).iter().filter(|c| c.origin == image[1]).count()).collect())'),
 ('look-up 1 before 6', 'refuse_if(!faults_of_image(image).is_empty(), UNSOUND)?;', 'refuse_if((1..=8).contains(&image[0]) && origin >= image[0], RANGE)?;\n    refuse_if(!faults_of_image(image).is_empty(), UNSOUND)?;'),
 ('message write of 257', '!records.len().is_multiple_of(Record::LENGTH) || count > HISTORY_WRITES, UNSOUND)', '!records.len().is_multiple_of(Record::LENGTH) || count > 65535, UNSOUND)'),
 ('message write count in 16 bits', 'let count = records.len() / Record::LENGTH;\n    refuse_if(!records.len().is_multiple_of(Record::LENGTH) || count', 'let count = records.len() / Record::LENGTH & 0xffff;\n    refuse_if(!records.len().is_multiple_of(Record::LENGTH) || count'),
 ('message write floor', '!records.len().is_multiple_of(Record::LENGTH) || count > HISTORY_WRITES, UNSOUND', 'count > HISTORY_WRITES, UNSOUND'),
 ('message write 9 before 6', 'refuse_if(!valid_servers(n, sender), RANGE)?;\n    let count', 'refuse_if(!valid_servers(n, sender), RANGE)?; refuse_if(out.len() < 8 + records.len() / 28 * 28, SHORT)?;\n    let count'),
 ('next place one less', 'Some(bytes) => Ok(Left { number: at + Record::LENGTH, ..Left::out(answered(record, bytes)?) }),', 'Some(bytes) => Ok(Left { number: at + Record::LENGTH - 1, ..Left::out(answered(record, bytes)?) }),'),
 ('first of any bytes', 'None => Left::number(message.len()),', 'None => Left::number(MESSAGE_HEADER),'),
 ('first of no message is 0', 'None => Left::number(message.len()),', 'None => Left::number(0),'),
 ('first of no message is 6', 'None => Left::number(message.len()),', 'None => Left::number(UNSOUND as usize),'),
 ('first of no message by its offset', 'None => Left::number(message.len()),', 'None => Left::number(if message.len() < 8 { message.len() } else { u16_at(message, 4) as usize }),'),
 ('first of no message in 16 bits', 'None => Left::number(message.len()),', 'None => Left::number(message.len() & 0xffff),'),
 ('first by the header alone', 'match Message::parse(message) {\n        Some(_) => Left::number(MESSAGE_HEADER),', 'match (message.len() >= 8 && valid_servers(message[0], message[1]) && u16_at(message, 4) == 8 && u16_at(message, 6) as usize == message.len()).then_some(()) {\n        Some(_) => Left::number(MESSAGE_HEADER),'),
 ('first of no records is 0', 'Some(_) => Left::number(MESSAGE_HEADER),', 'Some(m) => Left::number(if m.records.is_empty() { 0 } else { MESSAGE_HEADER }),'),
 ('first of a full message is the second', 'Some(_) => Left::number(MESSAGE_HEADER),', 'Some(_) => Left::number(MESSAGE_HEADER + Record::LENGTH * (message.len() == 7_176) as usize),'),
 ('next place one more', 'Some(bytes) => Ok(Left { number: at + Record::LENGTH, ..Left::out(answered(record, bytes)?) }),', 'Some(bytes) => Ok(Left { number: at + Record::LENGTH + 1, ..Left::out(answered(record, bytes)?) }),'),
 ('next record from the byte after', 'let whole = message.get(at..).and_then(|rest| rest.get(..Record::LENGTH))', 'let whole = message.get(at..).and_then(|rest| rest.get(..Record::LENGTH).map(|b| rest.get(1..29).unwrap_or(b)))'),
 ('next record without its last byte', 'Some(bytes) => Ok(Left { number: at + Record::LENGTH, ..Left::out(answered(record, bytes)?) }),', 'Some(bytes) => Ok(Left { number: at + Record::LENGTH, ..Left::out([&bytes[..27], &record[27..]].concat()) }),'),
 ('next of 27 bytes', 'let whole = message.get(at..)', 'let longer = [message, &[0]].concat(); let whole = longer.get(at..)'),
 ('next leaves the last record', 'message.get(at..).and_then', 'message.get(at..).filter(|rest| rest.len() > Record::LENGTH).and_then'),
 ('next finds no end', 'None => Ok(Left::default()),\n    }\n}\n\n/// A new session', 'None => Ok(Left::number(at)),\n    }\n}\n\n/// A new session'),
 ('next gives the last record again', 'message.get(at..).and_then', 'message.get(if at == message.len() { at.saturating_sub(Record::LENGTH) } else { at }..).and_then'),
 ('next zeroes the record at the end', 'None => Ok(Left::default()),\n    }\n}\n\n/// A new session', 'None => Ok(Left::out([&[0; Record::LENGTH], &record[Record::LENGTH..]].concat())),\n    }\n}\n\n/// A new session'),
 ('next copies a part of a record', 'None => Ok(Left::default()),\n    }\n}\n\n/// A new session', 'None => { let rest = message.get(at..).unwrap_or(&[]); Ok(Left::out([rest, &record[rest.len()..]].concat())) }\n    }\n}\n\n/// A new session'),
 ('next zeroes past the record', 'Some(bytes) => Ok(Left { number: at + Record::LENGTH, ..Left::out(answered(record, bytes)?) }),', 'Some(bytes) => Ok(Left { number: at + Record::LENGTH, ..Left::out([bytes, &vec![0; record.len() - Record::LENGTH]].concat()) }),'),
 ('next 0 before 9', 'refuse_if(record.len() < Record::LENGTH, SHORT)?;', 'if record.len() < Record::LENGTH { return if message.get(at..).is_some_and(|rest| rest.len() >= Record::LENGTH) { Err(SHORT) } else { Ok(Left::default()) }; }'),
 ('next 9 at 28', 'refuse_if(record.len() < Record::LENGTH, SHORT)?;', 'refuse_if(record.len() <= Record::LENGTH, SHORT)?;'),
 ('next in 27 bytes of room', 'refuse_if(record.len() < Record::LENGTH, SHORT)?;', 'if record.len() == 27 && message.get(at..).is_some_and(|rest| rest.len() >= 28) { return Ok(Left { number: at + 28, ..Left::out(message[at..at + 27].to_vec()) }); }\n    refuse_if(record.len() < Record::LENGTH, SHORT)?;'),
 ('next 9 changes the record', 'refuse_if(record.len() < Record::LENGTH, SHORT)?;', 'if record.len() < Record::LENGTH { return Ok(Left { number: 9, ..Left::out(vec![0; record.len()]) }); }'),
 ('next 9 is 0', 'refuse_if(record.len() < Record::LENGTH, SHORT)?;', 'refuse_if(record.len() < Record::LENGTH, 0)?;'),
 ('next place wraps', 'let whole = message.get(at..)', 'if at.wrapping_add(Record::LENGTH) < Record::LENGTH { return Ok(Left::number(at.wrapping_add(Record::LENGTH).max(1))); }\n    let whole = message.get(at..)'),
 ('next place without bit 16', 'let whole = message.get(at..)', 'let at = at & !(1 << 16); let whole = message.get(at..)'),
 ('next place without bit 32', 'let whole = message.get(at..)', 'let at = at & !(1 << 32); let whole = message.get(at..)'),
 ('next place without bit 63', 'let whole = message.get(at..)', 'let at = at & !(1 << 63); let whole = message.get(at..)'),
 ('next place in the header is past it', 'let whole = message.get(at..)', 'let at = at.max(MESSAGE_HEADER); let whole = message.get(at..)'),
 ('next of an aligned place', 'let whole = message.get(at..)', 'let at = at / 4 * 4; let whole = message.get(at..)'),
 ('next of well formed messages only', 'let whole = message.get(at..)', 'let whole = message.get(at..).filter(|_| Message::parse(message).is_some())'),
 ('next of well formed records only', 'rest.get(..Record::LENGTH));', 'rest.get(..Record::LENGTH)).filter(|b| message.len() >= 8 && message[0] <= 8 && Record::parse(b).well_formed(message[0]));'),
 ('next to the count', 'let whole = message.get(at..)', 'let whole = message.get(at..).filter(|_| message.len() < 8 || at < 8 + 28 * u16_at(message, 2) as usize)'),
 ('next to the total', 'let whole = message.get(at..)', 'let message = if message.len() < 8 { message } else { &message[..message.len().min(u16_at(message, 6) as usize)] }; let whole = message.get(at..)'),
 ('session takes the last', '*raised = maximum(*raised, vector(reply_vector));', '*raised = vector(reply_vector);'),
 ('session minimum of 256', 'a[i].max(b[i])', 'a[i].max(b[i]).min(256)'),
 ('session not raised at the last position', 'vector(reply_vector));\n', '{ let mut v = vector(reply_vector); v[7] = 0; v });\n'),
 ('session raised only if chosen', '*raised = maximum(*raised, vector(reply_vector));', 'if after.choice == 3 || after.choice == 1 + written as u8 { *raised = maximum(*raised, vector(reply_vector)); }'),
 ('write reply leaves the session', '*raised = maximum(*raised, vector(reply_vector));', 'if !written { *raised = maximum(*raised, vector(reply_vector)); }'),
 ('read reply leaves the session', '*raised = maximum(*raised, vector(reply_vector));', 'if written { *raised = maximum(*raised, vector(reply_vector)); }'),
 ('write reply raises R', 'if written { &mut after.own_writes } else { &mut after.r }', 'if written { &mut after.r } else { &mut after.r }'),
 ('read reply raises own writes', 'if written { &mut after.own_writes } else { &mut after.r }', 'if written { &mut after.own_writes } else { &mut after.own_writes }'),
 ('replies change places', 'if written { &mut after.own_writes }', 'if !written { &mut after.own_writes }'),
 ('replies raise both vectors', 'let raised = if written', 'after.r = maximum(after.r, vector(reply_vector)); after.own_writes = maximum(after.own_writes, vector(reply_vector));\n    let raised = if written'),
 ('choice 1 carries own writes', '1 => vec![self.r],', '1 => vec![self.own_writes],'),
 ('choice 1 carries both', '1 => vec![self.r],', '1 => vec![self.r, self.own_writes],'),
 ('choice 2 carries R', '2 => vec![self.own_writes],', '2 => vec![self.r],'),
 ('choice 2 carries both', '2 => vec![self.own_writes],', '2 => vec![self.r, self.own_writes],'),
 ('choice 3 carries R alone', '_ => vec![self.r, self.own_writes],', '_ => vec![self.r],'),
 ('choice 3 carries own writes alone', '_ => vec![self.r, self.own_writes],', '_ => vec![self.own_writes],'),
 ('a read carries zero', 'self.chosen().into_iter().fold([0; SERVERS], maximum)', 'self.chosen().into_iter().take(0).fold([0; SERVERS], maximum)'),
 ('an unknown choice is taken for 1', 'refuse_if(!(1..=3).contains(&choice), RANGE)?;', 'let choice = if (1..=3).contains(&choice) { choice } else { 1 };'),
 ('an unknown choice is 6', 'refuse_if(!(1..=3).contains(&choice), RANGE)?;', 'refuse_if(!(1..=3).contains(&choice), UNSOUND)?;'),
 ('choice 0 is known', 'refuse_if(!(1..=3).contains(&choice), RANGE)?;', 'refuse_if(choice > 3, RANGE)?;'),
 ('choice 4 is known', '(1..=3).contains(&choice)', '(1..=4).contains(&choice)'),
 ('choice in 7 bits', '(1..=3).contains(&choice)', '(1..=3).contains(&(choice & 0x7f))'),
 ('raise takes any choice', 'let mut after = Session::parse(session)?;', 'let mut after = Session { choice: session[32], ..Session::parse(&[&session[..32], &[1]].concat())? };'),
 ('raise changes the choice', 'let mut after = Session::parse(session)?;', 'let mut after = Session { choice: 3, ..Session::parse(session)? };'),
 ('refused raise changes the session', 'let mut after = Session::parse(session)?;', 'if Session::parse(session).is_err() { return Ok(Left { number: 1, ..Left::out(vec![0; session.len()]) }); }\n    let mut after = Session::parse(session)?;'),
 ('raise 1 before 9', 'refuse_if(session.len() < Session::LENGTH || reply_vector.len() < VECTOR, SHORT)?;', 'refuse_if(session.len() < Session::LENGTH, SHORT)?; Session::parse(session)?; refuse_if(reply_vector.len() < VECTOR, SHORT)?;'),
 ('raise zeroes past the session', 'answered(session, &after.bytes())?', '[after.bytes(), vec![0; session.len() - Session::LENGTH]].concat()'),
 ('own writes stand first', 'r: vector(bytes), own_writes: vector(&bytes[VECTOR..])', 'own_writes: vector(bytes), r: vector(&bytes[VECTOR..])'),
 ('session start 1 before 9', 'refuse_if(session.len() < Session::LENGTH, SHORT)?;\n    Ok(Left::out(answered(session', 'Session::new(choice)?;\n    Ok(Left::out(answered(session'),
 ('session start leaves old vectors', 'answered(session, &Session::new(choice)?.bytes())?', '[&session[..32], &[Session::new(choice)?.choice], &session[33..]].concat()'),
 ('session start zeroes past the session', 'answered(session, &Session::new(choice)?.bytes())?', '[Session::new(choice)?.bytes(), vec![0; session.len() - Session::LENGTH]].concat()'),
 ('asks of any choice', 'Session::parse(session)?.carried()', 'Session { choice: session[32], ..Session::parse(&[&session[..32], &[1]].concat())? }.carried()'),
 ('asks 9 before 1', 'refuse_if(session.len() < Session::LENGTH, SHORT)?;\n    Ok(Left::out(answered(asked', 'refuse_if(session.len() < Session::LENGTH || asked.len() < VECTOR, SHORT)?;\n    Ok(Left::out(answered(asked'),
 ('cut leaves CR', 'after.put_state(&State::down(state.n, state.own));\n    Ok(', 'after.put_state(&State { cr: state.cr & 1, ..State::down(state.n, state.own) });\n    Ok('),
 ('writes past the reply buffer', 'from_raw_parts_mut(at, length).copy_from_slice(bytes)', 'from_raw_parts_mut(at, length).copy_from_slice(bytes); *at.add(length) ^= 1', 'fake'),
 ('writes before a buffer', 'from_raw_parts_mut(at, length).copy_from_slice(bytes)', 'from_raw_parts_mut(at, length).copy_from_slice(bytes); *at.sub(1) ^= 1', 'fake'),
 ('changes a const buffer', 'export!(ssaldorip_look_up(image,', 'export!(ssaldorip_look_up(mut image,', 'fake'),
 ('next changes the message', 'export!(ssaldorip_message_next(given,', 'export!(ssaldorip_message_next(mut given,', 'fake'),
 ('next place with a high bit', '        number\n    }\n}', '        if let (Call::MessageNext { .. }, 10..) = (call, number) { return number | 1 << 32; }\n        number\n    }\n}', 'fake'),
 ('judge brings the server up', 'export!(ssaldorip_judge(state,', 'export!(ssaldorip_judge(mut state,', 'fake'),
 ('first place with a high bit', '        number\n    }\n}', '        if let Call::MessageFirst = call { return number | 1 << 32; }\n        number\n    }\n}', 'fake'),
 ('asks changes the session', 'export!(ssaldorip_session_asks(given,', 'export!(ssaldorip_session_asks(mut given,', 'fake'),
 ('another version', 'pub const VERSION: u32 = 2;', 'pub const VERSION: u32 = 3;'),
]
# those that need a second change, in the same file
SECOND = {
 '4 by message count': ('refuse_if(state.held as usize + new.len() > HISTORY_WRITES, FULL)?;\n    let mut after', 'refuse_if(h0 + all > HISTORY_WRITES && !new.is_empty(), FULL)?;\n    let mut after'),
 'changes a const buffer': ('        number\n    }\n}', '        if let (Call::LookUp { .. }, 17..) = (call, number) { self.image[number] ^= 1; }\n        number\n    }\n}'),
 'next changes the message': ('        number\n    }\n}', '        if let (Call::MessageNext { at }, 10..) = (call, number) { self.given[at] ^= 1; }\n        number\n    }\n}'),
 'own writes stand first': ('[vector_bytes(&self.r), vector_bytes(&self.own_writes), vec![self.choice]]', '[vector_bytes(&self.own_writes), vector_bytes(&self.r), vec![self.choice]]'),
 'asks changes the session': ('        number\n    }\n}', '        if let (Call::SessionAsks, 0) = (call, number) { self.given[0] ^= 1; }\n        number\n    }\n}'),
 'judge brings the server up': ('        number\n    }\n}', '        if let (Call::Judge, 0) = (call, number) { self.state[2] = 1; }\n        number\n    }\n}'),
}
# each sentence of soundness left out
for m in re.finditer(r'    note\((.+), Fault::(\w+)\);\n', MODEL):
    M.append(('sound without ' + m.group(2), m.group(0), '    let _ = %s;\n' % m.group(1)))

# wrong steps with a state that is never judged: the checks of the demands alone must find them
UNJUDGED = ('    let state = State::parse(state);\n    match state.up {', '    return Vec::new();\n    #[allow(unreachable_code)]\n    let state = State::parse(state);\n    match state.up {')
DEMANDS = ['update raises V by all of T', 'recovery restores nothing', 'only the first write is logged', 'made-up vector',
           'log count before its bytes', 'log cleared before the checkpoint count', 'recovery raises V by T',
           'recovery replays every log record', 'session not raised at the last position', 'a gap is taken', 'recovery leaves the rest',
           'write reply leaves the session', 'write reply raises R', 'choice 2 carries R', 'choice 3 carries R alone',
           'choice 3 carries own writes alone', 'a read carries zero']
for name in DEMANDS:
    i = [m[0] for m in M].index(name)
    M.append(('unjudged: ' + name,) + M[i][1:])
    SECOND['unjudged: ' + name] = UNJUDGED

def sh(*a, **k): return subprocess.run(a, capture_output=True, text=True, **k)

env = dict(os.environ, SSALDORIP_LINKED='mutant')
r = sh('rustc', '--edition', '2021', '-O', '--crate-type', 'rlib', '--crate-name', 'ssaldorip_tests', 'src/lib.rs',
       '--cfg', 'ssaldorip_real', '-A', 'unexpected_cfgs', '-o', W + '/libssaldorip_tests.rlib', env=env)
assert r.returncode == 0, r.stderr

def build(name, model, fake):
    open(W + '/model.rs', 'w').write(model); open(W + '/lib.rs', 'w').write(fake)
    r = sh('rustc', '--edition', '2021', '-C', 'opt-level=1', '-C', 'panic=abort', '--crate-type', 'staticlib', '--crate-name',
           'ssaldorip', '--cap-lints', 'allow', W + '/lib.rs', '-o', W + '/libssaldorip.a')
    assert r.returncode == 0, name + '\n' + r.stderr
    # As the last of the link, since some linkers look for a name only in what comes behind it.
    r = sh('rustc', '--edition', '2021', '-O', 'src/bin/lockstep.rs', '--extern', 'ssaldorip_tests=' + W + '/libssaldorip_tests.rlib',
           '-C', 'link-arg=' + W + '/libssaldorip.a', '-o', W + '/lockstep')
    assert r.returncode == 0, name + '\n' + r.stderr

def run(*args):
    r = sh(W + '/lockstep', *args)
    return r.returncode, r.stdout.strip().split('\n')

for name, old, new, *where in M:
    text = FAKE if where else MODEL
    assert text.count(old) == 1, (name, text.count(old))
    assert name not in SECOND or text.count(SECOND[name][0]) == 1, name
only = sys.argv[1:]
missed, tried = [], 0
for name, old, new, *where in M:
    if only and name not in only: continue
    tried += 1
    text = (FAKE if where else MODEL).replace(old, new)
    if name in SECOND:
        o, n = SECOND[name]; assert text.count(o) == 1; text = text.replace(o, n)
    build(name, MODEL if where else text, text if where else FAKE)
    code, out = run('--steps', '40000', '--hostile', '100000')
    if code == 0: missed.append(name)
    where_found = next((l for l in out if l.startswith('seed ') and ('cluster' in l or 'hostile case' in l)), out[-1])
    c1, _ = run('--steps', '0', '--hostile', '100000')
    c2, o2 = run('--steps', '40000', '--hostile', '0', '--no-model')
    print(('found ' if code else 'MISSED'), '|', name, '|', where_found, '| hostile alone:', bool(c1), '| demands alone:',
          (o2[-2] if len(o2) > 1 else 'crash')[:90] if c2 else 'no', flush=True)
print(tried - len(missed), 'found,', len(missed), 'missed:', missed)
