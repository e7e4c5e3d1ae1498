'use strict';

/** Asks the lab's server. An answer is a text of lvdc-worker with its status; else there is an error, whose message is a key of `Words`. */
const Asking = (() => {
    const TYPE = 'application/x-lvdc-deck';
    const TOO_MANY = 503;
    const TRIES = 5;
    const WAIT = 200;
    const PATIENCE = 15000;
    const LOOK_EVERY = 2000;
    const MOST_KEPT = 24;
    const WHY = { 413: 'lab.long', 502: 'lab.late', 503: 'lab.many', 504: 'lab.late', 507: 'lab.late' };
    const kept = new Map();

    const pause = (milliseconds) => new Promise((done) => { window.setTimeout(done, milliseconds); });

    /** A response with its text, whatever it says; a server that is silent for a while is taken for gone. */
    async function fetched(address, options) {
        try {
            const response = await fetch(address, { ...options, signal: AbortSignal.timeout(PATIENCE) });
            return { response, text: await response.text() };
        } catch {
            throw new Error('lab.gone');
        }
    }

    const request = (words, deck) => fetched(`ask/${words.join('/')}`, { method: 'POST', headers: { 'Content-Type': TYPE }, body: deck });

    /** Asks once more where too many ask at once. */
    async function answered(words, deck) {
        for (let tries = 1; ; tries += 1) {
            const answer = await request(words, deck);
            if (answer.response.status !== TOO_MANY || tries === TRIES) return answer;
            await pause(WAIT * tries);
        }
    }

    async function asked(words, deck) {
        const { response, text } = await answered(words, deck);
        if (!response.ok) throw new Error(WHY[response.status] ?? 'lab.gone');
        return { status: Number(response.headers.get('Lvdc-Status')), text };
    }

    /** Keeps an answer, and drops the oldest where there are too many. */
    function keep(key, answer) {
        kept.set(key, answer);
        if (kept.size > MOST_KEPT) kept.delete(kept.keys().next().value);
        answer.catch(() => kept.delete(key));
        return answer;
    }

    /** The answer to these words over a deck; the same question isn't asked twice. */
    function ask(words, deck) {
        const key = `${words.join(' ')}\n${deck}`;
        return kept.get(key) ?? keep(key, asked(words, deck));
    }

    let looking = null;

    /** Looks from time to time whether the server is there again at the same address, and then begins the page anew. */
    function comeBack() {
        looking ??= window.setInterval(async () => {
            const answer = await fetched('programs.json').catch(() => null);
            if (answer?.response.ok) window.location.reload();
        }, LOOK_EVERY);
    }

    /** The programs that may be chosen. */
    async function programs() {
        const { response, text } = await fetched('programs.json');
        if (!response.ok) throw new Error('lab.gone');
        return JSON.parse(text);
    }

    return { ask, comeBack, programs };
})();
