'use strict';

/** The words of the pages, by language: `clients/view/words` has them, and `languages.js` is made from there. What a language hasn't is English. */
const Words = (() => {
    const LANGUAGES = window.LANGUAGES;
    const FIRST = 'en';

    const filled = (text, values) => text.replace(/\{(\w+)\}/g, (_, name) => values[name]);

    /** The words of a language: a function of a key, and of what stands for the names in braces. Where octal is asked for, a key as `happens.IN` is
     * `happens.IN.octal`, if there is such a one. */
    function of(language, octal = false) {
        const sentences = { ...LANGUAGES[FIRST], ...LANGUAGES[language] };
        const has = (key) => Object.hasOwn(sentences, key);
        const say = (key, values = {}) => filled(sentences[octal && has(`${key}.octal`) ? `${key}.octal` : key], values);
        return Object.assign(say, { language, octal, has });
    }

    /** The first of some names that a language has; else English. */
    const known = (...names) => names.find((it) => it !== null && Object.hasOwn(LANGUAGES, it)) ?? FIRST;

    return { LANGUAGES, of, known };
})();
