'use strict';

/** Begins the flight: listens to all that a visitor can use, and keeps visitors on the page. */
(() => {
    const IDLE_SECONDS = 60;
    const LEADS_AWAY = /^(F\d+|BrowserBack|BrowserForward|BrowserHome)$/;
    const { place } = FlightSight;

    function offerLanguages(flight) {
        const { html } = Element;
        const button = ([name, { language }]) => html('button', { type: 'button', lang: name, 'aria-label': language, click: () => flight.speak(name) },
            html('span', { class: 'full' }, language), html('span', { class: 'code' }, name.toUpperCase()));
        place('languages').replaceChildren(...Object.entries(Words.LANGUAGES).map(button));
    }

    /** No menus, no dropped files, no keys but those that the page has. */
    function closeWaysOut() {
        for (const name of ['contextmenu', 'dragstart', 'dragover', 'drop']) document.addEventListener(name, (event) => event.preventDefault());
        document.addEventListener('keydown', (event) => {
            if (event.ctrlKey || event.metaKey || event.altKey || LEADS_AWAY.test(event.key)) event.preventDefault();
        });
        document.addEventListener('wheel', (event) => { if (event.ctrlKey) event.preventDefault(); }, { passive: false });
    }

    function begin() {
        const asked = new URLSearchParams(window.location.search);
        const language = Words.known(asked.get('lang'), asked.get('kiosk'), navigator.language.slice(0, 2));
        const flight = new Flight(language, Number.parseInt(asked.get('idle'), 10) || IDLE_SECONDS);
        window.flight = flight;
        offerLanguages(flight);
        flight.sight.speak(language);
        place('story').addEventListener('click', () => Story.show(place('told'), flight.sight.words));
        place('sound').addEventListener('click', () => flight.useSound(!flight.sight.sound.on));
        for (const event of ['pointerdown', 'keydown']) document.addEventListener(event, () => flight.watch());
        if (asked.has('kiosk')) closeWaysOut();
        place('sound').hidden = asked.get('sound') === 'none';
        if (asked.has('brightness')) document.documentElement.style.filter = `brightness(${Number.parseInt(asked.get('brightness'), 10) || 100}%)`;
        flight.guarded(() => flight.begin());
    }

    document.addEventListener('DOMContentLoaded', begin);
})();
