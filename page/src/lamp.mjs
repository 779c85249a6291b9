// What a panel lights: while it is open nothing else puts it out for good.

/**
 * @typedef {import('./store.mjs').Store} Store
 * @typedef {import('./store.mjs').Lit} Lit
 */

/** The light of one panel. */
export class Lamp {
    /**
     * @param {Store} store
     * @param {string} panel
     */
    constructor(store, panel) {
        this.store = store;
        this.panel = panel;
        /** @type {Lit[]} */
        this.lit = [];
        store.subscribe((_, what) => {
            // advice that was looked at meanwhile has put it out
            if (what.has('lit') && !what.has('text') && store.panel === panel && store.lit.length === 0) this.light(this.lit);
        });
    }

    /**
     * Lights some things, or nothing.
     * @param {Lit[]} lit
     */
    light(lit) {
        const before = this.lit;
        this.lit = lit;
        if (lit.length > 0 || before.length > 0) this.store.light(lit);
    }
}
