'use strict';

/** What is shown, and what a visitor does. */
const Page = (() => {
    const { html } = Element;
    let timeline = null;
    let deckGiven = '';

    const place = (id) => document.getElementById(id);

    // ---- drawing

    /** The first text of each kind that is there. */
    function sorted(texts) {
        const found = new Map();
        for (const it of texts) {
            const kind = Kinds.of(it);
            if (kind !== 'empty' && !found.has(kind)) found.set(kind, it);
        }
        return found;
    }

    function sessionSection(found, deck) {
        if (!found.has('session')) return [];
        return [SessionView.of(SessionText.read(found.get('session')), deck, (step) => timeline?.goTo(step, null))];
    }

    /** The picture of a run: of the plain machine only time and tables, since it has no copies and no faults. */
    function runSections(report, deck) {
        const plain = report.title === 'PLAIN';
        const shown = plain ? { ...deck, faults: [] } : deck;
        const time = TimeView.of(report, shown);
        timeline = time.view;
        const machine = plain ? [] : [MachineView.of(report, shown), MemoriesView.of(report, shown)];
        const left = report.title === '' ? [] : [Tables.of(report)];
        return [...machine, time.made, ...left];
    }

    /** What was told of a run before it is drawn: its end, its refusal, a campaign. */
    function firstSections(found, report, deck) {
        return [
            ...(found.has('refusal') ? [EndView.refused(Report.refusal(found.get('refusal')), deck)] : []),
            ...(found.has('report') ? [EndView.run(report)] : []),
            ...(found.has('soak') ? [EndView.soak(Report.soak(found.get('soak')))] : []),
            ...(found.has('rows') ? [CampaignView.of(Rows.read(found.get('rows')), deck)] : []),
        ];
    }

    /** Whether there is a run to draw: a report, or a deck that nothing else was told of. */
    function hasRun(found, deck) {
        if (found.has('report')) return true;
        return found.has('deck') && !found.has('refusal') && !found.has('rows') && deck.scripts.length === 0;
    }

    /** The drawing of a trace, step by step. */
    function traceSections(found, report, deck) {
        if (!found.has('trace')) return [];
        const trace = Trace.read(found.get('trace'));
        return [ExhibitView.ofTrace(trace, report, deck), ...EndView.unread(trace.unread, 'the trace')];
    }

    function sections(found) {
        const deck = found.has('deck') ? Deck.read(found.get('deck')) : Deck.empty();
        const report = found.has('report') ? Report.read(found.get('report')) : Report.empty();
        timeline = null;
        const doubts = Belongs.doubts(deck, report);
        const apart = doubts.length > 0 ? [EndView.doubted(doubts)] : [];
        const run = hasRun(found, deck) ? runSections(report, apart.length > 0 ? Deck.empty() : deck) : [];
        const session = sessionSection(found, deck);
        const ofDeck = found.has('deck') ? [DeckView.of(deck)] : [];
        const unknown = found.has('unknown') ? [EndView.asItIs(found.get('unknown'))] : [];
        return [...apart, ...firstSections(found, report, deck), ...traceSections(found, report, deck), ...ofDeck, ...session, ...run, ...unknown];
    }

    function notice(found, given) {
        if (found.size === 0) return 'Nothing to show yet: choose an example, or give a deck and its report.';
        const words = [];
        if (found.has('deck') && found.size === 1) words.push('A deck alone is shown. Give its report too, to see how the run ended.');
        if (given > found.size) words.push('Of several texts of one kind only the first is shown.');
        return words.join(' ');
    }

    /** Draws what these texts say, whichever they are. */
    function show(texts) {
        const found = sorted(texts);
        place('picture').replaceChildren(...sections(found));
        place('notice').textContent = notice(found, texts.filter((it) => Kinds.of(it) !== 'empty').length);
        timeline?.draw();
    }

    // ---- what a visitor chooses

    const examples = () => window.EXAMPLES ?? {};

    function choose(name) {
        if (!Object.hasOwn(examples(), name)) return;
        const { deck, told } = examples()[name];
        place('choice').value = name;
        place('deck-text').value = deck;
        place('told-text').value = told[0] ?? '';
        show([deck, ...told]);
    }

    /** Shows files. Where no deck is among them, the deck that was given as a file before belongs to them. */
    async function open(files) {
        const texts = await Promise.all([...files].map((it) => it.text()));
        const deck = texts.find((it) => Kinds.of(it) === 'deck');
        place('choice').value = '';
        deckGiven = deck ?? deckGiven;
        show(deck === undefined ? [deckGiven, ...texts] : texts);
        if (deck === undefined && deckGiven !== '') place('notice').textContent = 'Shown with the deck that was given before.';
    }

    const named = () => decodeURIComponent(window.location.hash.slice(1));

    /** The examples, each of which has an address of its own. */
    function offerExamples() {
        place('choice').append(...Object.keys(examples()).map((it) => html('option', { value: it }, it.replaceAll('-', ' '))));
        place('no-examples').hidden = Object.keys(examples()).length > 0;
        place('choice').addEventListener('change', (event) => {
            choose(event.target.value);
            window.location.hash = event.target.value;
        });
        window.addEventListener('hashchange', () => { if (named() !== place('choice').value) choose(named()); });
    }

    function offerFiles() {
        place('files').addEventListener('change', (event) => open(event.target.files));
        document.addEventListener('dragover', (event) => event.preventDefault());
        document.addEventListener('drop', (event) => {
            event.preventDefault();
            if (event.dataTransfer.files.length > 0) open(event.dataTransfer.files);
        });
        place('show').addEventListener('click', () => show([place('deck-text').value, place('told-text').value]));
    }

    /** Paper is light: the canvas is drawn anew for it, and in the colours of the screen afterwards. */
    function followColours() {
        const printing = (now) => () => {
            document.documentElement.classList.toggle('printing', now);
            timeline?.draw();
        };
        window.addEventListener('beforeprint', printing(true));
        window.addEventListener('afterprint', printing(false));
        window.matchMedia('(prefers-color-scheme: dark)').addEventListener('change', () => timeline?.draw());
    }

    /** The tables of an exhibit, folded away: one touch away for those who want them. */
    function exhibitTables(found, exhibit) {
        const tables = runSections(found.report, found.deck);
        const folded = Element.folded('Tables and octal', false, DeckView.of(found.deck), ...tables);
        folded.id = 'tables';
        folded.addEventListener('toggle', () => {
            exhibit.stage.useOctal(folded.open);
            timeline?.draw();
        });
        return folded;
    }

    function showExhibit(given) {
        const found = ExhibitView.read(given);
        const parameters = new URLSearchParams(window.location.search);
        if (parameters.has('kiosk') && given.story) {
            Kiosk.begin(found, given.story, parameters);
            return;
        }
        document.documentElement.classList.add('in-exhibit');
        const { made, exhibit } = ExhibitView.of(found, Words.of('en'));
        const always = found.isForm && found.deck.faults.length > 0;
        const end = EndView.run(found.report, always);
        place('picture').replaceChildren(made, ...DeckView.told(found.deck), end, exhibitTables(found, exhibit));
    }

    function begin() {
        place('history').textContent = Words.of('en')('history');
        followColours();
        if (window.EXHIBIT) {
            place('inputs').hidden = true;
            document.title = `${window.EXHIBIT.name.replaceAll('-', ' ')}: a run of the LVDC`;
            showExhibit(window.EXHIBIT);
            return;
        }
        offerExamples();
        offerFiles();
        show([]);
        choose(named());
    }

    document.addEventListener('DOMContentLoaded', begin);

    return { show };
})();
