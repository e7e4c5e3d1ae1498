'use strict';

/** Which words and votes move in a moment, and on which ways. */
const Moves = (() => {
    const { TIME_OF_WORD } = Motion;

    /** Where each exchange comes from and goes to. The cells are those of one twin for a read, of all that hold the address for a store. */
    const ENDS = {
        FETCH: (cells) => [cells[0], { at: 'module', module: 3 }],
        OPERAND: (cells) => [cells[0], { at: 'module', module: 5 }],
        STORE: (cells, module) => cells.map((it) => [{ at: 'module', module }, it]),
        IN: () => [{ at: 'ports' }, { at: 'module', module: 5 }],
        OUT: () => [{ at: 'module', module: 5 }, { at: 'ports' }],
    };

    /** What stands on a word that moves: an instruction, or a number. */
    function textOf({ kind, word }, moment, words) {
        return Spelling.content({ word, instruction: kind === 'FETCH' ? moment.instruction : null }, words);
    }

    /** The cells that an exchange is made with: of a read that of the twin that answers, or of the first that holds the address. */
    function cellsOf(exchange, moment, indexOf, simplex) {
        if (!exchange.address) return [];
        const place = Cells.placeOf(exchange.address);
        const holders = Cells.holdersOf(exchange.address, simplex);
        const twins = exchange.kind === 'STORE' ? holders.filter((twin) => !moment.cells.dead[twin].has(place[0])) : [moment.answering ?? holders[0]];
        return twins.map((twin) => ({ at: 'cell', twin, index: indexOf(place) }));
    }

    /** The module that stores: the locator its saver, else the accumulator. */
    const storing = (moment) => (Latches.storesSaver(moment.votesBefore?.get(7)?.[1] ?? '0') ? 2 : 5);

    function exchangeWords(places, moment, look) {
        const { exchange } = moment;
        if (!exchange) return [];
        const ends = ENDS[exchange.kind](cellsOf(exchange, moment, look.indexOf, look.simplex), storing(moment));
        const pairs = exchange.kind === 'STORE' ? ends : [ends];
        const text = textOf(exchange, moment, look.words);
        return pairs.map(([from, to], at) => ({ points: Geometry.way(places, from, to), text, kind: exchange.kind.toLowerCase(), rests: at === 0 }));
    }

    /** The word of the good twin, which rewrites the cell of the other. */
    function repairWords(places, moment, look) {
        const { repair, exchange } = moment;
        if (!repair || !exchange) return [];
        const points = Geometry.across(places, look.indexOf(Cells.placeOf(repair.address)), repair.twin);
        return points.length === 0 ? [] : [{ points, text: textOf(exchange, moment, look.words), kind: 'repair', delay: TIME_OF_WORD }];
    }

    /** The votes of the three copies of a module, which come to the voter together; a copy that differs comes half the way. Where no modules are
     * drawn there are none. */
    function votesOf(places, number, moment, delay) {
        const { lamps, voter } = places.modules.get(number) ?? { lamps: [] };
        return lamps.map((lamp, at) => {
            const apart = moment.lamps.get(Trace.keyOf(number, at + 1)) === 'differed';
            const end = apart ? { x: (lamp.x + voter.x) / 2, y: (lamp.y + voter.y) / 2 } : voter;
            return { points: [lamp, end], kind: apart ? 'apart' : 'with', delay };
        });
    }

    /** The pull of the vote on each copy that is back at it. */
    function pulls(places, moment) {
        const back = [...moment.lamps].filter(([, kind]) => kind === 'healed').map(([key]) => key.split('-').map(Number));
        return back.filter(([module]) => places.modules.has(module)).map(([module, copy]) => {
            const { lamps, voter } = places.modules.get(module);
            return { points: [voter, lamps[copy - 1]], kind: 'pull', delay: 0 };
        });
    }

    /** All that moves in a moment; `look` knows the index of a cell, the simplex pairs, and the words. */
    function of(places, moment, look) {
        const words = [...exchangeWords(places, moment, look), ...repairWords(places, moment, look)];
        const delay = words.length > 0 ? TIME_OF_WORD * 0.85 : 200;
        const differs = (module) => Parts.COPIES.some((copy) => moment.differing.has(Trace.keyOf(module, copy)));
        const voting = Parts.MODULES.map((it) => it.number).filter((it) => moment.changed.has(it) || differs(it));
        return { words, votes: [...pulls(places, moment), ...voting.flatMap((it) => votesOf(places, it, moment, delay))] };
    }

    return { of };
})();
