'use strict';

/** What has befallen the cells of both twins, step by step: from the fault lines of the deck, and the repairs and stores of a trace. */
const Cells = (() => {
    /** The pair and place of an address: banks 4 to 7 are those of pairs 0 to 3 that are simplex. */
    const placeOf = (address) => `${Number(address[0]) % 4}${address.slice(1)}`;

    /** The twins that hold an address: both, or in a simplex pair one. */
    function holdersOf(address, simplex) {
        if (Number(address[0]) >= 4) return [1];
        return simplex.has(address[0]) ? [0] : Parts.TWINS;
    }

    /** Keeps, for each twin, which places are damaged. Stuck and dead ones are those whose fault lines act. */
    class Keeper {
        constructor(faults, simplex, damaged = Parts.TWINS.map(() => [])) {
            Object.assign(this, { faults: faults.filter((it) => it.twin !== null), simplex });
            this.damaged = damaged.map((it) => new Set(it));
        }

        acting(kind, step) { return this.faults.filter((it) => it.kind === kind && Faults.actsIn(it, step, step)); }

        /** The pairs in which a twin is dead. */
        dead(twin, step) { return new Set(this.acting('DEAD', step).filter((it) => it.twin === twin).map((it) => it.pair)); }

        /** What has befallen each place of a twin, before the exchange of a step. */
        befallen(twin, step) {
            const found = new Map([...this.damaged[twin]].map((place) => [place, ['damaged']]));
            for (const it of this.acting('STICK', step)) if (it.twin === twin) found.set(it.place, [...(found.get(it.place) ?? []), 'stuck']);
            return found;
        }

        /** Goes on to a step; the damage of the step is done before it. */
        enter(step) {
            for (const it of this.acting('DAMAGE', step)) this.damaged[it.twin].add(it.place);
            return { marks: Parts.TWINS.map((twin) => this.befallen(twin, step)), dead: Parts.TWINS.map((twin) => this.dead(twin, step)) };
        }

        /** Whether a twin stores at a place in a step. */
        stores(twin, place, step) { return !this.dead(twin, step).has(place[0]); }

        /** What a step's exchange has rewritten: a cell that was repaired, and the cells of a store. */
        leave(step) {
            const repaired = step.repair ? [[step.repair.twin, placeOf(step.repair.address)]] : [];
            const address = step.exchange?.kind === 'STORE' ? step.exchange.address : null;
            const stored = address === null ? [] : holdersOf(address, this.simplex).map((twin) => [twin, placeOf(address)]);
            for (const [twin, place] of [...repaired, ...stored]) if (this.stores(twin, place, step.number)) this.damaged[twin].delete(place);
        }
    }

    /** The places that a run is about: those of the report's words, of exchanges, repairs and fault lines, in their order. */
    function placesOf(report, deck, ...traces) {
        const found = new Set();
        for (const it of [...report.memory, ...report.repairs]) found.add(placeOf(it.address));
        for (const it of deck.faults) if (it.place) found.add(it.place);
        for (const step of traces.flatMap((it) => it.steps)) if (step.exchange?.address) found.add(placeOf(step.exchange.address));
        return [...found].sort();
    }

    return { Keeper, placeOf, holdersOf, placesOf };
})();
