'use strict';

/** Begins the lab: listens to all that a visitor can use, and keeps the language. */
(() => {
    const KEPT_LANGUAGE = 'lvdc-language';
    const SAID_FOR = 2000;
    const IDLE_SECONDS = 60;
    const { place } = LabSight;

    const on = (id, event, act) => place(id).addEventListener(event, act);

    /** The language of the address, else the one that was chosen last, else the browser's, else the first. */
    function languageAtFirst() {
        const asked = new URLSearchParams(window.location.search);
        return Words.known(asked.get('lang'), asked.get('kiosk'), window.localStorage.getItem(KEPT_LANGUAGE), navigator.language.slice(0, 2));
    }

    function listenToTime(page) {
        on('slider', 'input', (event) => { page.rest(); page.goTo(Number(event.target.value)); });
        on('to-start', 'click', () => page.goTo(0));
        on('back', 'click', () => page.goTo(page.step - 1));
        on('forward', 'click', () => page.goTo(page.step + 1, true));
        on('to-end', 'click', () => page.goTo(page.last));
        on('play', 'click', () => page.play());
    }

    function listenToChoices(page) {
        on('program', 'change', (event) => page.choose(Number(event.target.value)));
        on('count', 'change', (event) => page.take(Number(event.target.value)));
        on('octal', 'click', () => page.useOctal(!page.sight.words.octal));
        on('undo', 'click', () => page.undo());
        on('again', 'click', () => page.startAgain());
        for (const twin of Parts.TWINS) on(`memory-${twin}`, 'click', () => page.hurt(Hurts.memory(twin, page.step)));
        on('languages', 'click', ({ target }) => {
            const { lang } = target.closest('#languages button') ?? {};
            if (!lang) return;
            window.localStorage.setItem(KEPT_LANGUAGE, lang);
            page.speak(lang);
        });
    }

    async function copyDeck(page) {
        await navigator.clipboard.writeText(page.session.text);
        place('copy').textContent = page.sight.words('lab.copied');
        window.setTimeout(() => { place('copy').textContent = page.sight.words('lab.copy'); }, SAID_FOR);
    }

    function keepDeck(page) {
        const address = URL.createObjectURL(new Blob([page.session.text], { type: 'text/plain' }));
        Element.html('a', { href: address, download: 'broken.deck' }).click();
        window.setTimeout(() => URL.revokeObjectURL(address), SAID_FOR);
    }

    async function open(page, files) {
        if (files.length > 0) await page.use(await files[0].text());
    }

    function listenToDecks(page) {
        on('copy', 'click', () => copyDeck(page));
        on('keep', 'click', () => keepDeck(page));
        on('file', 'change', (event) => open(page, event.target.files));
        on('deck', 'change', (event) => page.use(event.target.value));
        document.addEventListener('dragover', (event) => event.preventDefault());
        document.addEventListener('drop', (event) => { event.preventDefault(); open(page, event.dataTransfer.files); });
    }

    /** In a kiosk nothing leads out of the page, and after a while without a touch it begins again, in the language that it had at first. */
    function beKiosk(page, seconds) {
        const language = document.documentElement.lang;
        let waiting = null;
        const beginAgain = () => { page.speak(language); page.beginAgain(); };
        const wait = () => { window.clearTimeout(waiting); waiting = window.setTimeout(beginAgain, 1000 * seconds); };
        for (const event of ['pointerdown', 'keydown', 'input']) document.addEventListener(event, wait);
        document.addEventListener('contextmenu', (event) => event.preventDefault());
        document.body.classList.add('kiosk');
    }

    function begin() {
        const asked = new URLSearchParams(window.location.search);
        const page = new LabPage(languageAtFirst());
        listenToTime(page);
        listenToChoices(page);
        if (!asked.has('kiosk')) listenToDecks(page);
        page.begin();
        if (asked.has('kiosk')) beKiosk(page, Number(asked.get('idle') ?? IDLE_SECONDS));
    }

    document.addEventListener('DOMContentLoaded', begin);
})();
