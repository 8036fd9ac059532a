/* A test of drafts, evaluated in the page: one is typed in, its edits come to a replica or are refused, others write
   there, and answers and news come in any order. Each letter is another one, so that it is seen where one is lost. */
(() => {
  let state = 7, made = 0;
  const below = (most) => {
    state = (Math.imul(state, 1103515245) + 12345) >>> 0;
    return (state >>> 8) % most;
  };
  const fresh = (count) => Array.from({ length: count }, () => String.fromCodePoint(0x20000 + (made += 1)));
  const ok = (is, what) => { if (!is) throw new Error(`round ${round}: ${what}`); };
  let round = 0;
  for (; round < 400; round += 1) {
    const replica = fresh(below(6)), log = [], put = new Set(replica), gone = new Set(), cutHere = new Set();
    const draft = new Draft(replica.join(""));
    let version = 0, flight = null;
    const make = (at, cut, letters, by) => {
      letters.forEach((it) => put.add(it));
      const cuts = replica.splice(at, cut, ...letters);
      for (const it of cuts) {
        ok(!by || cutHere.has(it), "a letter went that nobody took out");
        gone.add(it);
      }
      log.push([at, cut, letters.join(""), by]);
    };
    const hear = (upto) => {
      const before = Array.from(draft.text()), place = below(before.length + 1);
      draft.carets = [{ cell: draft.cellAt(before.slice(0, place).join("").length), isAfter: false }];
      for (const [at, cut, letters, by] of log.slice(version, upto)) {
        draft.change({ at, cut, put: letters, isOwn: flight !== null && by === flight.by });
      }
      version = Math.max(version, upto);
      const after = Array.from(draft.text()), beside = after.indexOf(before[place - 1]);
      const now = Array.from(draft.text().slice(0, draft.offsetOf(draft.carets[0].cell))).length;
      ok(place === 0 ? now === 0 : beside < 0 || now === beside + 1, "the caret went astray");
    };
    const deeds = [
      () => {  // somebody types
        const shown = Array.from(draft.text()), at = below(shown.length + 1);
        const cut = below(2) * below(Math.min(4, shown.length - at + 1)), letters = fresh(below(3));
        shown.slice(at, at + cut).forEach((it) => cutHere.add(it));
        letters.forEach((it) => put.add(it));
        shown.splice(at, cut, ...letters);
        draft.type(shown.join(""), shown.slice(0, at + letters.length).join("").length);
        ok(draft.text() === shown.join(""), "what was typed is not shown");
      },
      () => {  // it is sent
        if (flight) return;
        const steps = draft.ask();
        if (steps.length) flight = { by: `me.${made}`, version, steps, status: null };
      },
      () => {  // it comes to the replica
        if (!flight || flight.status) return;
        flight.status = flight.version !== log.length ? "STALE" : below(4) ? "MADE" : "HELD";
        const done = flight.status === "STALE" ? 0 : flight.status === "MADE" ? flight.steps.length
          : below(flight.steps.length);
        flight.steps.slice(0, done).forEach(([at, cut, letters]) => make(at, cut, Array.from(letters), flight.by));
        flight.upto = log.length;
      },
      () => {  // the answer comes
        if (!flight || !flight.status) return;
        if (version === flight.version) hear(flight.upto);
        draft.answered();
        flight = null;
      },
      () => {  // others write
        const at = below(replica.length + 1);
        if (below(2)) make(at, 0, fresh(1 + below(3)), null);
        else make(at, below(Math.min(3, replica.length - at + 1)), [], null);
      },
      () => hear(log.length),
    ];
    for (let i = 0; i < 60; i += 1) deeds[below(deeds.length)]();
    for (let i = 0; i < 30; i += 1) for (const it of [1, 2, 3, 5]) deeds[it]();
    ok(!flight && draft.text() === replica.join(""), "the texts differ");
    ok(draft.cells.every((it) => it.isKnown && it.isShown), "something is left to be done");
    // each letter is another one: what was put and not taken out is there, once, and nothing else
    const left = Array.from(put).filter((it) => !gone.has(it) && !cutHere.has(it));
    ok(left.length === replica.length && left.every((it) => replica.includes(it)), "a letter was lost, or came again");
  }
  return made;
})()
