"""Wrong brokers, each of which a test has to see.

usage: python3 -m tests.wrong [NAME ..]      all of them, if none is named; run in bindings/broker

Each is the package with a few lines turned. The test that is named beside it has to fail with them; with the package as it is it passes, as
`python3 -m unittest` shows."""

from __future__ import annotations

import os
import shutil
import subprocess
import sys
import tempfile
from typing import NamedTuple

from tests.brokers import TOP


class Wrong(NamedTuple):
    test: str
    file: str
    edits: tuple[tuple[str, str], ...]


WRONG = {
    "bays of a lab that each begin with session 1": Wrong(
        "test_bays.Holds.test_numbers_and_names_of_guests_are_of_the_whole_lab", "keeping.py", (("number, sets = max(it._next for it in self.peers), tuple", "number, sets = self._next, tuple"),)
    ),
    "a lab with an instrument in two bays": Wrong(
        "test_labs.Files.test_an_instrument_twice_names_both_files", "labs.py", (("                if (other := first.setdefault(one, name)) != name:\n", "                if what == 'a station' and (other := first.setdefault(one, name)) != name:\n"),)
    ),
    "a lab that forgets a bay in which somebody holds": Wrong(
        "test_bays.Restarts.test_a_bay_that_was_taken_out_while_somebody_holds_is_missed", "bays.py", (("        if held := _still_holds(path):\n", "        if (held := _still_holds(path)) and not held:\n"),)
    ),
    "a lab that changes some bays though somebody is in the way in another": Wrong(
        "test_bays.Changes.test_who_is_in_the_way_of_one_keeps_all", "lab_applying.py", (("lab.bays[name], by, True) for name, it in bays.of.items()}", "lab.bays[name], by, True) for name, it in bays.of.items() if is_check}"),)
    ),
    "a ticket whose session is looked for in one bay alone": Wrong(
        "test_bays.Holds.test_a_ticket_leads_to_its_bay", "bays.py", (("        before = next((it for it in self.peers if it.has(key)), None)\n", "        before = next((it for it in self.peers[:1] if it.has(key)), None)\n"),)
    ),
    "a wait in a bay that goes on once its client asks in another": Wrong(
        "test_bays.Holds.test_who_asks_elsewhere_with_its_ticket_leaves_the_line", "bays.py", (("            before.leaves_line(key)\n", "            pass\n"),)
    ),
    "an apply of one bay by which an instrument is in two": Wrong(
        "test_bays.Changes.test_a_name_that_another_bay_has", "lab_applying.py", (("        _may(bays, {name: after})\n", "        pass\n"),)
    ),
    "people of a lab of whom its bays know nothing": Wrong(
        "test_bays.Changes.test_who_is_taken_out_of_the_lab_is_let_in_no_more", "labs.py", (("        return replace(bay, name=name, people=self.people, limits=self.limits)\n", "        return replace(bay, name=name, limits=self.limits)\n"),)
    ),
    "an urgent session that is asked for as any other": Wrong(
        "test_urgent.Order.test_who_waits_keeps_its_place", "keeping.py", ((", self.now(), wish.urgent)\n", ", self.now())\n"),)
    ),
    "people of whom each may ask urgently": Wrong(
        "test_urgent.Rights.test_who_may", "rights.py", (("person not in (*bay.people.operators, *bay.people.urgent)", "person not in bay.people.of"),)
    ),
    "a session over two bays that waits in the first while it holds in the second": Wrong(
        "test_crossing.Holds.test_it_waits_in_the_first_and_holds_nothing", "over.py", (("        for home in it.homes:\n", "        for home in reversed(it.homes):\n"),)
    ),
    "a session over two bays that keeps what it got by trying": Wrong(
        "test_crossing.Holds.test_who_waits_for_nothing_has_nothing", "crossing.py", (("                home._leaves(part, fault)\n", "                pass\n"),)
    ),
    "a session over two bays that is told once it holds in the first": Wrong(
        "test_crossing.Holds.test_a_time_limit_that_passes_in_the_second", "over.py", (("            ways = [way for way in ways if set(way[home]) == set(part.instruments)]\n", "            return part\n"),)
    ),
    "a broker that begins again, and keeps a part of a session that was never told": Wrong(
        "test_crossing_ends.Restarts.test_each_cut_between_the_two_journals", "over.py", (("                _ends(bays, home, part)\n", "                pass\n"),)
    ),
    "a session over two bays of which one part is taken away": Wrong(
        "test_crossing_ends.Ends.test_a_release_ends_it_in_all_bays", "crossing.py", (("                making_safe.takes(home, part, how)\n", "                pass\n"),)
    ),
    "a guard that is told of a part before its client is told of the whole": Wrong(
        "test_crossing_ends.Ends.test_a_guard_is_told_once_its_client_is", "guarding.py", (("if session.is_at_work for name", "if session.holds for name"),)
    ),
    "a limit of a session over two bays that counts from its first part": Wrong(
        "test_crossing_ends.Ends.test_a_limit_counts_from_when_it_is_told", "standing.py", (("        return self.since if self.told_at is None else self.told_at\n", "        return self.since\n"),)
    ),
    "a session over two bays of which each part has its own bay's limit": Wrong(
        "test_lasting.OverBays.test_the_limit_of_one_bay_counts_in_all",
        "crossing.py",
        (("part.is_kept, part.limit, part.told_at = self.is_kept, self.limit, ", "part.is_kept, part.told_at = self.is_kept, "),),
    ),
    "a limit of a session over two bays that counts from its first part once the broker began again": Wrong(
        "test_lasting.OverBays.test_a_limit_counts_from_when_it_was_told_over_a_restart", "over.py", (("if one is not part]", "if one]"),)
    ),
    "a broker of whose tokens only the first lets in": Wrong(
        "test_service.WhoIsLetIn.test_a_token_is_replaced", "entrance.py", (("map(digest_of, tokens)", "map(digest_of, tokens[:1])"),)
    ),
    "a guard whose death looks as if all were said": Wrong(
        "test_guard.Commands.test_a_guard_that_is_killed", "relay.py", (("    one.dies_by_reset()\n", ""),)
    ),
    "a guard whose client is reset though all was said": Wrong(
        "test_guard_inside.Between.test_a_long_answer_is_whole", "relay.py", (("            self.dies_by_reset(False)\n        self.transport.close()\n", "            pass\n        self.transport.close()\n"),)
    ),
    "a hold that passes on as an end what TLS hasn't said": Wrong(
        "test_guard_inside.WithTls.test_an_end_that_tls_does_not_say", "forward.py", (("and self._is_cut_short():\n", "and False:\n"),)
    ),
    "a guard that cuts nobody": Wrong(
        "test_guard_inside.Exclusion.test_many_times_over", "guard.py", (("                self.cuts += 1\n                one.cut()\n", "                self.cuts += 1\n                one.over.set()\n"),)
    ),
    "a guard that waits for what another one had": Wrong(
        "test_guard_inside.Between.test_bytes_that_another_guard_had", "guard.py", ((" and any(it.token == token for it in self.through)\n", "\n"),)
    ),
    "a guard that takes any ticket": Wrong(
        "test_guard.LetsThrough.test_not_who_holds_another",
        "guard.py",
        (("await self._token_of(lambda it: hmac.compare_digest(it.ticket_hash, digits))", "await self._token_of(lambda it: len(it.ticket_hash) == len(digits))"),),
    ),
    "a guard that opens the next one before it has closed the last": Wrong(
        "test_guard_inside.Exclusion.test_the_old_one_is_closed_before_the_next_is_opened", "guard.py", (("            await other.over.wait()\n", "            await asyncio.sleep(0)\n"),)
    ),
    "a guard that takes the word of a broker that isn't asked any more": Wrong(
        "test_guard_inside.Exclusion.test_an_older_one_is_ignored", "guard.py", (("if holder is not None and holder.token < self.newest:", "if holder is not None and holder.token < 0:"),)
    ),
    "a guard that lets in by host who came before the session": Wrong(
        "test_guard_late.HearsLate.test_it_came_before_the_session", "whose.py", (("    is_early = caller.at.last < began.first or", "    is_early = False and caller.at.last < began.first or"),)
    ),
    "a guard that lets in by host without asking who holds now": Wrong(
        "test_guard_late.HearsLate.test_the_session_has_ended", "whose.py", (("                if its != token:\n", "                if False:\n"),)
    ),
    "a guard that sends what was queued": Wrong(
        "test_guard.Ends.test_nothing_queued_is_sent", "guard.py", (("                one.cut()\n", "                one.there.resets = False\n                one.there.closes()\n                one.caller.cut()\n"),)
    ),
    "a guard that mixes up what two sessions say": Wrong(
        "test_relay.Reads.test_what_waits_stays_as_it_was", "relay.py", (("self.comes(bytes(_room.at[:count]))", "self.comes(_room.at[:count])"),)
    ),
    "a session that lets go before its last word has arrived": Wrong(
        "test_guard.LetsThrough.test_the_last_word_arrives", "held.py", (("            await self._ways.lets_go()\n", "            pass\n"),)
    ),
    "a guard that is told of a holder that isn't on the disk": Wrong(
        "test_guard_inside.Told.test_no_holder_that_is_not_on_the_disk",
        "guarding.py",
        (
            ("for session in it.by_number.values() if session.is_at_work for name", "for session in it.by_number.values() if session.state != 'over' for name"),
            ("                await keeping.confirmed()\n", "                await asyncio.sleep(0)\n"),
        ),
    ),
    "a guard that isn't told of an end": Wrong(
        "test_guard_inside.Told.test_of_two_it_is_told_of_the_end_first", "guarding.py", (("if it.token and it.token != now[name].token]", "if it.token < 0]"),)
    ),
    "a client's deadline counted from when it notices the cut": Wrong(
        "test_cuts.Programs.test_its_program_is_told_before_another_holds",
        "held.py",
        (
            ("self._until = math.inf if self._lease is None else sent + self._lease", "self._until = math.inf"),
            (
                "        if self.state == \"held\" and self._returns is None and not self.lab._has_left:\n",
                "        if self.state == \"held\" and self._returns is None and not self.lab._has_left:\n            self._until = clock() + (self._lease or math.inf)\n",
            ),
        ),
    ),
    "a client's deadline counted from when it is answered": Wrong(
        "test_cuts.Deadlines.test_from_what_was_sent", "held.py", (("self._until = max(self._until, sent + self._lease)", "self._until = clock() + self._lease"),)
    ),
    "a grace that ends before the client's deadline": Wrong(
        "test_cuts.Programs.test_its_program_is_told_before_another_holds", "leases.py", (("LEASE, SILENT = 0.75, 1 / 3", "LEASE, SILENT = 1.5, 1 / 3"),)
    ),
    "by HTTP: who waits and asks nothing stays in the line": Wrong(
        "test_http.Gone.test_one_that_waits_and_asks_nothing_leaves_the_line", "visits.py", (("            self._holding.cancel()\n            self._ends(Ended(\"NotHeld\", \"its", "            self._ends(Ended(\"NotHeld\", \"its"),)
    ),
    "by HTTP: whose connection has ended is waited for like any other": Wrong(
        "test_http.Gone.test_whose_connection_ends_while_it_waits", "visits.py", (("self._is_quiet_from_now(CUT)", "self._is_quiet_from_now(QUIET)"),)
    ),
    "by HTTP: who holds and asks nothing isn't gone": Wrong(
        "test_http.Gone.test_one_that_holds_is_kept_and_comes_back", "visits.py", (("elif self.session is None or self._keeping.lease_of(self.session) is None:", "elif False:"),)
    ),
    "by HTTP: a request is no word of its client": Wrong(
        "test_http.Gone.test_with_a_grace_it_is_released", "visits.py", (("            self._keeping.heard(self.session, self, True)\n", "            pass\n"),)
    ),
    "by HTTP: a wish that is sent twice loses its place": Wrong(
        "test_http.Sessions.test_who_asks_again_keeps_its_place", "visits.py", (("visit.state == WAITING and visit.wish != wish", "visit.state == WAITING"),)
    ),
    "by HTTP: an answer older than the lease": Wrong(
        "test_http.Gone.test_no_answer_is_older_than_a_part_of_the_lease", "visits.py", (("min(MOST_WAIT, lease / PART_OF_LEASE)", "MOST_WAIT"),)
    ),
    "by HTTP: who was told that another came takes it back by a question": Wrong(
        "test_http.Sessions.test_another_connection_comes_for_it", "visits.py", (("            self._ends[visit.key] = visit.fault\n", "            pass\n"),)
    ),
    "by HTTP: no token is asked for": Wrong(
        "test_http.Doors.test_by_the_network_with_token_and_certificate", "http_door.py", (("not request.app[IS_TCP], uid,", "True, uid,"),)
    ),
    "by HTTP: a page of elsewhere may ask": Wrong(
        "test_http.Doors.test_pages_of_elsewhere", "http_door.py", (("if origin is not None and origin not in self.origins and", "if False and origin is not None and"),)
    ),
    "by HTTP: a name that was turned to this address": Wrong(
        "test_http.Doors.test_pages_of_elsewhere", "http_door.py", (("not self.entrance.asks_for_token and not is_asked_here(request)", "False"),)
    ),
    "by HTTP: a route that the file doesn't have": Wrong(
        "test_http.Described.test_each_route", "http_door.py", (("        app.router.add_post(f\"{one}/ping\", taking(self._pings))\n", "        app.router.add_post(f\"{one}/beat\", taking(self._pings))\n"),)
    ),
    "by HTTP: an answer with a field that the file doesn't have": Wrong(
        "test_http.Sessions.test_one_after_another", "visits.py", (("\"text\": why, \"waits_for\"", "\"why\": why, \"text\": why, \"waits_for\""),)
    ),
    "by HTTP: a body of any length": Wrong(
        "test_http.Refused.test_bodies_that_are_none", "http_door.py", (("client_max_size=http_words.MOST_BYTES", "client_max_size=1 << 30"),)
    ),
    "by HTTP: half of a character": Wrong(
        "test_http.Refused.test_bodies_that_are_none", "http_words.py", (("        given.encode()\n", "        pass\n"),)
    ),
    "people: any token is somebody's": Wrong("test_people.Doors.test_who_comes", "people.py", (("if hmac.compare_digest(its, digest):", "if its:"),)),
    "people: the bay's token still lets in": Wrong(
        "test_people.Doors.test_who_comes", "entrance.py", (("        if not people:\n            return self._has", "        if not people or self._has_not_the_token(it) is None:\n            return self._has"),)
    ),
    "people: nobody is cut off": Wrong("test_people.Doors.test_who_is_here", "entrance.py", (("                task.cancel()\n", ""),)),
    "people: all are cut off": Wrong("test_people.Doors.test_who_is_here", "entrance.py", ((" and (why := self.why_not(caller)) is not None:", " and (why := str(self.why_not(caller))):"),)),
    "people: one may ask for all": Wrong(
        "test_people.Rights.test_who_may_ask_for_what", "rights.py", (("    return tuple(name for name in its if name in may)\n", "    return its\n"),)
    ),
    "people: a client says who it is": Wrong("test_people.Rights.test_who_may_ask_for_what", "people.py", (("    return f\"{person}: {by}\" if person and by and by != person else person or by\n", "    return by or person\n"),)),
    "people: anybody ends a session": Wrong("test_people.Rights.test_another_s_session", "ending.py", (("    rights.check_release(keeping.bay, person, session)\n", ""),)),
    "people: anybody comes with a ticket": Wrong("test_people.Rights.test_another_s_session", "keeping.py", (("            rights.check_ticket(self.bay, wish.person, held)\n", ""),)),
    "people: forgotten over a restart": Wrong("test_people.Rights.test_another_s_session", "taking_up.py", (("    session.person = it.person\n", ""),)),
    "people: a bay that is open to everybody": Wrong("test_people.Doors.test_nobody_is_left", "applying.py", (("        entrance.may_be(after)\n", "        pass\n"),)),
    "people: anybody is an operator": Wrong(
        "test_people.Rights.test_another_s_session", "rights.py", (("    if bay.people and person not in bay.people.operators:\n", "    if False:\n"),)
    ),
    "people: gRPC's own socket lets in": Wrong("test_people.Brokers.test_the_socket", "service.py", (("if self.fronts is not None and peer not in self.fronts.users:", "if False:"), ("None if self.fronts is None else self.fronts.users[peer]", "None if self.fronts is None else self.fronts.users.get(peer)"))),
    "people: by HTTP the user isn't looked at": Wrong("test_people.ByHttp.test_requests", "visits.py", (("            check_same(self.keeping.bay, caller.person, visit.wish.person)\n", ""),)),
    "a let-go answered and not written": Wrong(
        "test_written.OnDisk.test_a_let_go_is_written_before_it_is_answered",
        "ending.py",
        (("making_safe.LET_GO)\n    keeping._shell.pump()\n", "making_safe.LET_GO)\n    __import__('asyncio').get_running_loop().call_later(0.1, keeping._shell.pump)\n"),),
    ),
    "a hold told before its line is on the disk": Wrong(
        "test_disk.Disks.test_nobody_is_told_before_it_is_durable",
        "shell.py",
        (("            self._written = position\n", "            self._written = position\n            self.machine.durable(position)\n"),),
    ),
    "a record without its end": Wrong(
        "test_written.Records.test_killed_behind_the_journals_line", "mending.py", (("if it.end and it.number not in over:", "if it.end == \"left\":"),)
    ),
    "an end recorded before its line is written": Wrong(
        "test_written.Hanging.test_an_end_that_hangs", "records.py", (("        if is_end or self._held_back:\n", "        if False:\n"),)
    ),
    "an end recorded in a folder before etcd has it": Wrong(
        "test_replica.Deposed.test_nor_writes_an_end_that_isnt_one",
        "shell.py",
        (("self._durable if self._aside is None or self._last_fault is not None else self._written)", "self._written)"),),
    ),
    "an end recorded that was never written": Wrong(
        "test_written.FullDisk.test_no_end_is_recorded_that_the_journal_hasnt", "records.py", (("            if not at:\n", "            if True:\n"),)
    ),
    "an end without its record": Wrong(
        "test_keeping.Sessions.test_one_after_another", "keeping.py", (("        self._record(what, session, text=text, after=self._span(session))\n", ""),)
    ),
    "a ticket of another": Wrong(
        "test_keeping.Gone.test_a_ticket_of_another",
        "keeping.py",
        (("            held = self._by_key.get(key)\n", "            held = self._by_key.get(key) or next(iter(self._by_key.values()), None)\n"),),
    ),
    "a release of whatever the station holds by now": Wrong(
        "test_keeping.Gone.test_released_by_an_operator", "ending.py", (("if number and session.number != number:", "if number and session.number < number:"),)
    ),
    "a leader that doesn't look whether it still leads": Wrong(
        "test_replica.Deposed.test_it_grants_nothing", "leading.py", (("[is_of(self.key, self.fence)], what,", "[], what,"),)
    ),
    "one that comes back without a fence": Wrong(
        "test_replica.Deposed.test_nor_says_that_one_is_back", "keeping.py", (("                await self.settling.leads()\n", "                pass\n"),)
    ),
    "a fault without a fence": Wrong("test_replica.Deposed.test_nor_refuses", "settling.py", (("            await keeping.settling.answers()\n", ""),)),
    "a let-go that etcd doesn't have": Wrong(
        "test_replica.Deposed.test_nor_lets_go", "ending.py", (("    await keeping.settling.kept()\n", ""),)
    ),
    "taken away before it is kept": Wrong(
        "test_replica.Deposed.test_nor_takes_away", "keeping.py", (("self.settling.tells(owner.taken, text)", "owner.taken(text)"),)
    ),
    "one that lost its session, and isn't told because etcd refused once to say who leads": Wrong(
        "test_replica.Deposed.test_what_one_is_told_once_etcd_says_again_who_leads", "settling.py", (("            except OSError:\n", "            except ZeroDivisionError:\n"),)
    ),
    "a word of a client answered without a fence": Wrong(
        "test_replica.Deposed.test_nor_that_a_client_is_heard", "service.py", (("            await self.keeping.settling.leads()\n", "            pass\n"),)
    ),
    "a batch that isn't tried again as it was": Wrong(
        "test_replica.Stores.test_full", "replica.py", (("        if self._batch is None:\n", "        if True:\n"),)
    ),
    "what is handed out again is there twice": Wrong(
        "test_replica.Stores.test_full", "replica.py", (("        self._known, self._is_read = known, True\n", "        self._known, self._is_read = 0, True\n"),)
    ),
    "one that tells who waits of nobody, once its time is over": Wrong(
        "test_replica.Deposed.test_what_one_that_waits_is_told_of_a_full_etcd", "service.py", (("            if asks and asks[0].state == \"over\":\n", "            if False:\n"),)
    ),
    "one that stands by, and tells of each answer that etcd doesn't give": Wrong(
        "test_replica.Next.test_a_silent_etcd", "leading.py", (("            self._tells_at = now + LATE\n", "            self._tells_at = now\n"),)
    ),
    "one that stands by, and tells of none while questions are answered": Wrong(
        "test_replica.Next.test_an_etcd_that_only_answers_questions",
        "leading.py",
        (("                if self._may_lead(self._others(), says)", "                self._tells_at = None\n                if self._may_lead(self._others(), says)"),),
    ),
    "a client that is told of a broker that stands by, and not of the one that it can't speak to": Wrong(
        "test_certificates.Looking.test_why_is_known_as_soon_as_it_fails", "finding.py", (("        self._at = self._at if leads is None else leads\n", ""),)
    ),
    "a wrong certificate that is named only once nobody leads": Wrong(
        "test_certificates.Certificates.test_a_wrong_one_is_named_at_once", "finding.py", (("return leads is not None and is_for_good(whys[leads])", "return False"),)
    ),
    "a guard that goes by the certificate that it began with": Wrong(
        "test_certificates.Certificates.test_a_guard_reads_it_again", "guard_command.py", (("wrong = await lab._reads_again(args.certificate, args.token_file)\n", "wrong = None\n"),)
    ),
    "a broker of a list that is asked why only once it tries again": Wrong(
        "test_certificates.Looking.test_why_is_known_as_soon_as_it_fails",
        "finding.py",
        (("            elif why := await _why_not(channel):\n", "            elif channel.get_state() is FAILS and (why := await _why_not(channel)):\n"),),
    ),
    "a hold that asks before its broker has said a word": Wrong(
        "test_leaving.Leaves.test_a_broker_that_has_said_nothing", "quick.py", (("        self.wire.is_answered()\n", ""),)
    ),
    "a hold that ends by a signal, and doesn't say that its session may come to hold": Wrong(
        "test_leaving.Leaves.test_another_signal_ends_it", "leaving.py", (("        if not is_told:\n", "        if False:\n"),)
    ),
    "a hold that waits for a broker that was killed, and tells nobody that it leaves": Wrong(
        "test_leaving.Leaves.test_one_that_was_killed_and_comes_back", "coming.py", (("CancelledError:\n            await self._leaves(None)\n", "CancelledError:\n            pass\n"),)
    ),
    "a hold that has told a broker that was killed then, and tells nobody else": Wrong(
        "test_leaving.Leaves.test_one_that_is_killed_while_it_is_told", "withdrawing.py", (("        return lost.code is NOBODY\n", "        return True\n"),)
    ),
    "a hold that goes on to wait for a broker that it has given up": Wrong(
        "test_quick.Quick.test_a_signal_while_a_broker_that_is_gone_is_told", "work.py", (("                if not isinstance(fault, GivenUp):\n", "                if True:\n"),)
    ),
    "a wait that asks nobody whether the broker is there": Wrong("test_silence.Programs.test_what_waits_is_called_with", "coming.py", (("            if asks and self._stream", "            if False and self._stream"),)),
    "a hold that misses its broker by the clock": Wrong(
        "test_silence.Counts.test_words_in_time", "silence.py", (("        self._count, self._for = 0, A_WHILE\n", "        self._for = A_WHILE\n"),)
    ),
    "a hold that says that its place is kept, and asked anew": Wrong(
        "test_silence.Counts.test_a_cut_is_no_silence", "silence.py", (("        self._is_lost = self._has_place\n", "        pass\n"),)
    ),
    "a guard that blames the broker for its own sleep": Wrong(
        "test_guard.Commands.test_a_guard_that_was_stopped", "guard_command.py", (("            if not pulse.stood_still():\n", "            if True:\n"),)
    ),
    "one that holds on for a client by HTTP that was never told": Wrong(
        "test_labrun_hold.Held.test_it_is_killed_while_the_broker_is_stopped", "visits.py", (("        elif self._is_untold and self.session", "        elif False and self.session"),)
    ),
    "one that asks for a client by HTTP that is gone": Wrong(
        "test_labrun_hold.Held.test_it_is_killed_while_the_broker_is_stopped", "http_door.py", (("        check_there(request)\n        visit = await", "        visit = await"),)
    ),
    "a note that is given up, and whose answer is taken for that of the let-go": Wrong(
        "test_cancels.Cancels.test_a_note", "questions.py", (("            if not it.is_sent:\n                asked.cancel()\n", "            asked.cancel()\n"),)
    ),
    "a task that is cancelled just as it came to hold, and holds on": Wrong(
        "test_cancels.Cancels.test_just_as_it_came_to_hold", "work.py", (("            await self._undo()\n", "            pass\n"),)
    ),
    "a lab that is closed before who leaves the line has told so": Wrong(
        "test_cancels.Cancels.test_as_it_asks_and_the_lab_is_closed", "client.py", (("        await self._leaving.end(CLOSING)\n", ""),)
    ),
    "a program that ends before what lets go has told so": Wrong(
        "test_cancels.Cancels.test_as_it_lets_go_and_the_program_ends", "client.py", (("        await self._under_way.end(CLOSING)\n", ""),)
    ),
    "a lab that is closed while its broker is away, and goes on to look for it": Wrong(
        "test_stopped.Killed.test_a_lab_is_closed_meanwhile", "client.py", (("held in its for task in (held._returns, held._beats)", "held in its for task in (held._beats,)"),)
    ),
    "a short time limit that is over before anything is asked": Wrong(
        "test_stopped.Stopped.test_a_short_limit_leaves_a_try", "coming.py", (("max(self._until, self._loop.time()) + 2 * LATE", "self._until + 2 * LATE"),)
    ),
    "a program that asks before it knows that its broker goes on": Wrong(
        "test_stopped.Stopped.test_a_time_limit_is_kept", "coming.py", (("await self._in_time(stream.is_answered())", "pass"),)
    ),
    "a write that is lost before it began, and cancels whoever asks": Wrong(
        "test_cuts.Writes.test_one_that_had_not_begun", "stream.py", (("        if not task.cancelled():\n            task.result()", "        task.result()"),)
    ),
    "a client by HTTP that gives up as it asks, and is waited for": Wrong(
        "test_http.Races.test_one_that_gives_up_just_as_it_asks", "visits.py", (("        self._holding.add_done_callback(", "        (lambda call: None)("),)
    ),
    "a port that two ask for at once, one of which stays": Wrong(
        "test_races.Forwards.test_two_ask_at_once", "forward.py", (("[0] is not forward or self._is_closed", "[0] is None or self._is_closed"),)
    ),
    "a port that opens as its session ends, and stays": Wrong(
        "test_races.Forwards.test_it_ends_as_one_asks", "forward.py", (("[0] is not forward or self._is_closed", "[0] is not forward"),)
    ),
    "a program that connects as its session ends, and isn't cut off": Wrong(
        "test_races.Forwards.test_it_ends_as_a_program_connects", "forward.py", (("        for local in self._locals:\n            local.cut()\n", ""),)
    ),
    "a connection to a guard that is left open for nobody": Wrong(
        "test_races.Forwards.test_it_ends_as_its_guard_is_asked", "forward.py", (("                    there.cut()\n                    raise\n", "                    raise\n"),)
    ),
    "one that is led to a port of a session that is over": Wrong(
        "test_races.Forwards.test_it_is_over_as_its_program_asks", "held.py", (("        self._may_ask()\n        return at\n", "        return at\n"),)
    ),
    "a wait that fails just as it comes to hold, and holds on": Wrong(
        "test_races.Failing.test_just_before_it_is_told_that_it_holds",
        "coming.py",
        (("may have let it hold just now)\n            await self._leaves(stream)\n", "may have let it hold just now)\n            stream.cancel()\n"),),
    ),
    "an answer that is taken for that of the next question": Wrong(
        "test_races.Failing.test_just_after_it_was_told_that_it_holds", "stream.py", (("            self._answers.get_nowait()\n", "            break\n"),)
    ),
    "a wait that has failed before it asks, and goes on": Wrong(
        "test_races.Failing.test_before_it_asks", "coming.py", (("            if self._fault is not None:\n                raise self._fault\n            kind,", "            kind,"),)
    ),
    "a wait that fails once its broker was killed, and tells nobody": Wrong(
        "test_races.Failing.test_when_its_broker_was_killed_that_said_that_it_holds",
        "coming.py",
        (("                    await self._leaves(None)\n                    raise", "                    raise"),),
    ),
    "a stream that stays open for a session that is over": Wrong(
        "test_races.Returns.test_for_a_session_that_is_over", "held.py", (("                    stream.is_idle()\n", ""),)
    ),
    "a client by HTTP that is gone before its first event, and is never missed": Wrong(
        "test_races.Events.test_for_one_that_is_gone_before_the_first",
        "http_door.py",
        (("            try:\n                await response.prepare(request)\n", "            await response.prepare(request)\n            try:\n"),),
    ),
    "a hold that takes what it let go of for taken away": Wrong(
        "test_races.Quickly.test_a_broker_that_is_killed_as_a_hold_lets_go", "questions.py", (("return self.was_let_go() or any(", "return any("),)
    ),
    "a hold that lets go of what is let go of by then": Wrong(
        "test_races.Quickly.test_a_broker_that_is_killed_as_a_hold_lets_go", "held.py", ((' or self._questions.was_let_go()\n', "\n"),)
    ),
    "one that is told what comes of it, and then that its session was taken away": Wrong(
        "test_races.Taken.test_just_as_it_lets_go", "service.py", (('self._taking is not None and told.HasField("fault")', "False"),)
    ),
    "a bay that changes by halves, because whoever changed it is gone": Wrong(
        "test_races.Gone.test_people_who_are_taken_out", "applying.py", (("        if keeping.bay is bay:\n            _has_changed", "        if False:\n            _has_changed"),)
    ),
    "what is out of order as it is written, and not as it is told": Wrong(
        "test_races.Gone.test_an_instrument_that_is_taken_out", "service.py", (("to_its_end(self.keeping, does(person))", "does(person)"),)
    ),
    "a time limit that a broker which is stopped doesn't end": Wrong(
        "test_stopped.Stopped.test_stopped_as_it_is_asked", "stream.py", (("                    raise Silent\n", "                    pass\n"),)
    ),
    "a standby that leads by another file": Wrong(
        "test_replica.Next.test_another_bays_file", "leading.py", (("is_other = not others.applied and others.led not in (\"\", self._mark)", "is_other = False"),)
    ),
    "a bay that was applied, and isn't kept": Wrong(
        "test_failover.Kept.test_with_the_new_page", "replica.py", (("        beside = [] if applied is None else self._leading.applies(*applied)\n", "        beside = list[Any]()\n"),)
    ),
    "a bay that is said to be applied, and isn't in etcd": Wrong(
        "test_failover.Kept.test_a_full_etcd", "applying.py", (("        await keeping.settling.kept()\n", "        pass\n"),)
    ),
    "one that leads by its own file, though another bay was applied": Wrong(
        "test_failover.Applied.test_by_a_signal", "standby.py", (("    if applied is None:\n", "    if True:\n"),)
    ),
    "one that lets in everybody once it leads": Wrong(
        "test_failover.Applied.test_a_door_that_nobody_watches",
        "serve.py",
        (("dataclasses.replace(it, has_people=bool(bay.people)) for it", "dataclasses.replace(it, has_people=True) for it"),),
    ),
    "one that puts out of order what another one makes safe": Wrong(
        "test_failover.Stopped.test_what_comes_of_its_command", "leading.py", (("[is_of(self.key, self.fence)], what,", "[], what,"),)
    ),
    "one that isn't answered for long": Wrong(
        "test_replica.Deposed.test_its_clock", "leading.py", (("            if begun >= self._sure_until:\n", "            if False:\n"),)
    ),
    "a fence that began before it was asked for": Wrong(
        "test_replica.Fences.test_it_begins_after_the_question", "replica.py", (("        self._next = None\n        fault", "        fault"), ("loop.call_soon_threadsafe(_is_answered, one, fault)", "self._next = None\n            loop.call_soon_threadsafe(_is_answered, one, fault)"),)
    ),
    "one that lets go of what has a command, at once": Wrong(
        "test_making_safe.AfterASession.test_the_next_one_waits", "making_safe.py", (("    await asyncio.gather(*(_makes_one_safe(", "    asyncio.gather(*(_makes_one_safe("),)
    ),
    "one that forgets that a session is over": Wrong(
        "test_making_safe.OverRestarts.test_ended_while_it_runs", "making_safe.py", (("    keeping._notes(session, \"over\", ended)\n", ""),)
    ),
    "one that lets go before it is written that it is out of order": Wrong(
        "test_making_safe.OverRestarts.test_that_it_is_out_of_order_is_written_first", "making_safe.py", (("        return False\n    return True\n", "        return True\n    return True\n"),)
    ),
    "one whose limits give what has a command to the next one": Wrong(
        "test_making_safe.AfterASession.test_each_way_to_end", "keeping.py", ((" or session.is_followed else wishes.milliseconds", " else wishes.milliseconds"),)
    ),
    "one that releases what only one of its words keeps": Wrong("test_kept.Words.test_whose_word_counts", "kept.py", (("return own == KEEP or any(", "return all("),)),
    "one that forgets which words it told": Wrong("test_kept.Sessions.test_over_a_restart", "opening.py", (("                self.kept.add(it.number)\n", "                pass\n"),)),
    "one that forgets whom it told by which words": Wrong("test_kept.Sessions.test_a_change_and_then_a_restart", "places.py", (("(*(it.below(now) for it in its), ", "(*its, "),)),
    "one that waits is told once": Wrong("test_service.Clients.test_for_whom_one_waits", "service.py", ((" or now > said_at + AGAIN", ""),)),
    "one that waits isn't told that the client is gone": Wrong("test_service.Clients.test_whose_client_is_gone", "standing.py", ((", why.count(GONE),", ","),)),
    "one that waits isn't told that the disk doesn't keep it any more": Wrong(
        "test_written.FullDisk.test_who_waits_for_the_disk", "standing.py", ((", why.count(ONCE))", ")"),)
    ),
    "one that waits isn't told of the station's next session": Wrong(
        "test_service.Clients.test_the_next_session_of_the_same_station", "standing.py", (("it[\"session\"], it[\"holds\"]", "it[\"station\"], it[\"holds\"]"),)
    ),
    "one that waits as a station isn't told of its next session": Wrong(
        "test_service.Clients.test_the_next_session_of_the_same_station", "standing.py", (("tuple(it.number for it, _, _ in self.holders if it.kind == session.kind) if session.kind else ", ""),)
    ),
    "one that gives a folder away while it writes there": Wrong(
        "test_turning.Ends.test_nothing_is_written_once_it_has_ended", "closing.py", (("if state.lets_wait or await its.has_ended():", "if True:"),)
    ),
    "one that gives a folder away while the disk hangs": Wrong(
        "test_turning.Ends.test_a_disk_that_hangs", "shell.py", (("self._last is not None and not (await asyncio.wait({self._last}, timeout=CLOSING))[1]", "True"),)
    ),
    "people: everybody is told the command": Wrong(
        "test_people.Rights.test_who_is_told_how_to_enable", "rights.py", (("if not people or person in people.operators:\n        return f\"once", "if True:\n        return f\"once"),)
    ),
    "one that forgets who took something out": Wrong("test_applying.TakenOut.test_by_whom_and_when", "places.py", (("**out, **gone, **former}", "**out, **gone}"),)),
    "one that writes a note again": Wrong("test_noted.OfProtocol.test_on_another_connection", "ending.py", (("if number == 0 or number != session.noted[0]:", "if True:"),)),
    "one that takes any note for the one before": Wrong("test_noted.OfProtocol.test_on_another_connection", "ending.py", (("number != session.noted[0]:", "session.noted[0] == 0:"),)),
    "a hold that says twice why its session is lost": Wrong(
        "test_commands.WithBroker.test_what_is_lost_is_lost_alike", "run.py", (("if status == TAKEN and not held.held:", "if False:"),)
    ),
    "a hold that isn't let in, and is told that it may hold": Wrong("test_quick.Quick.test_what_is_refused", "quick.py", (("                self.has_asked = False\n", "                pass\n"),)),
    "one that tells who waits by HTTP of a change only later": Wrong("test_http.Unchanged.test_it_is_answered_when_that_is_another", "visits.py", (("if self.for_whom() != self._told_of:", "if False:"),)),
    "a let-go that ends otherwise when it is asked for again": Wrong(
        "test_full.Again.test_who_lets_go_and_asks_again", "visits.py", (("if self._letting_go is None or self._letting_go.done():", "if True:"),)
    ),
    "one that says that it let go, and hasn't written it": Wrong("test_full.Again.test_who_lets_go_and_asks_again", "keeping.py", (('if why.kind == "LetGo":', "if False:"),)),
    "a let-go during which its client isn't heard": Wrong(
        "test_full.FullAndReleased.test_who_lets_go", "service.py", (('kind == "note" or kind == "let_go" and self._waiting is None', 'kind == "note"'),)
    ),
    "a broker with TLS that is stopped, and given up at once": Wrong(
        "test_texts.Network.test_one_that_is_stopped_for_a_while", "errors.py", ((', "Handshake read failed"', ""),)
    ),
    "of notes with one text those that are missing in the records": Wrong(
        "test_past.Mended.test_notes_with_one_text", "mending.py", (("                noted[it.number, text] -= 1\n", "                pass\n"),)
    ),
    "records that can't be written, and nobody is told": Wrong(
        "test_written.FullDisk.test_records_alone", "records.py", (("                self._fails(fault)\n", ""),)
    ),
    "an end that doesn't wait for records": Wrong(
        "test_written.FullDisk.test_an_end_with_records_alone", "closing.py", (("records.is_under_way or records.is_behind and", "records.is_under_way or False and"),)
    ),
    "one that waits twice as long as it says": Wrong(
        "test_full.Again.test_who_notes_releases_and_asks", "settling.py", (("        except labrun.JournalError:\n", "        except ZeroDivisionError:\n"),)
    ),
    "a file that led though its bay didn't open": Wrong(
        "test_replica.Next.test_a_file_by_which_the_bay_did_not_open", "leading.py", (("delete(self._own)]", "put(self._bay, self._mark.encode()), delete(self._own)]"),)
    ),
    "one that guesses another number": Wrong("test_applying.TakenOut.test_no_other_number_is_meant", "wishes.py", (("if not number or _digits_of", "if True or _digits_of"),)),
}


def seen(it: Wrong) -> str:
    """Nothing if the test sees it, or why not."""
    here = f"{TOP}/bindings/broker"
    with tempfile.TemporaryDirectory() as top:
        os.makedirs(f"{top}/bindings")
        for name in ("examples", "bindings/python"):
            os.symlink(f"{TOP}/{name}", f"{top}/{name}")
        for name in ("labrun_broker", "tests"):
            shutil.copytree(f"{here}/{name}", f"{top}/bindings/broker/{name}", ignore=shutil.ignore_patterns("__pycache__"))
        path = f"{top}/bindings/broker/labrun_broker/{it.file}"
        with open(path, encoding="utf-8") as file:
            text = file.read()
        for old, new in it.edits:
            if text.count(old) != 1:
                return f"{it.file} doesn't have this just once: {old}"
            text = text.replace(old, new)
        with open(path, "w", encoding="utf-8") as file:
            file.write(text)
        environment = {**os.environ, "PYTHONPATH": f"{top}/bindings/broker:{top}/bindings/python", "PYTHONDONTWRITEBYTECODE": "1"}
        words = [sys.executable, "-m", "unittest", f"tests.{it.test}"]
        done = subprocess.run(words, cwd=f"{top}/bindings/broker", env=environment, capture_output=True, text=True, timeout=900)
        last = done.stderr.rstrip().rpartition("\n")[2]
        return "" if last.startswith("FAILED") and "ImportError" not in done.stderr and "AttributeError" not in done.stderr else f"{it.test}: {last}"


def main() -> int:
    names = sys.argv[1:] or list(WRONG)
    wrong = 0
    for name in names:
        why = seen(WRONG[name])
        wrong += bool(why)
        print(f"{name}: " + (f"NOT SEEN by {why}" if why else f"seen by {WRONG[name].test}"), flush=True)
    print(f"{len(names) - wrong} seen, {wrong} not")
    return bool(wrong)


if __name__ == "__main__":
    sys.exit(main())
