'use strict';

/** Sounds, made in the page. They are off until a visitor turns them on. */
class FlightSound {
    static QUIET = 0.0001;

    constructor() { Object.assign(this, { context: null, on: false }); }

    turn(on) {
        this.on = on;
        if (on) this.context ??= new AudioContext();
        if (on) this.context.resume();
        else this.context?.suspend();
    }

    /** A tone of so many hertz, which fades within so many seconds. */
    tone(hertz, seconds, shape = 'sine', loudness = 0.1) {
        if (!this.on) return;
        const { context } = this;
        const [source, gain] = [new OscillatorNode(context, { type: shape, frequency: hertz }), new GainNode(context, { gain: loudness })];
        gain.gain.exponentialRampToValueAtTime(FlightSound.QUIET, context.currentTime + seconds);
        source.connect(gain).connect(context.destination);
        source.start();
        source.stop(context.currentTime + seconds);
    }

    /** A word goes out: the further the rocket is to turn, the higher it sounds. */
    word(number) { this.tone(300 + Math.abs(number % 9000) / 30, 0.15); }

    strike() { this.tone(110, 0.3, 'sawtooth'); }

    flew() { [523, 659, 784].forEach((it, at) => window.setTimeout(() => this.tone(it, 0.4), 120 * at)); }

    broke() { this.tone(70, 1.2, 'sawtooth', 0.2); }
}
