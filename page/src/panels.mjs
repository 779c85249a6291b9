// The panels beside the drawing, in the order of their tabs.

import { textPanel } from './text.mjs';
import { partsPanel } from './parts.mjs';
import { planPanel } from './plan.mjs';
import { trainingPanel } from './training.mjs';
import { filesPanel } from './files.mjs';

/**
 * A panel: `mount` fills its root once, when the page is there, and listens to the store from then on. Its actions are
 * buttons at the top, with their keys.
 * @typedef {import('./store.mjs').Store} Store
 * @typedef {import('./store.mjs').Engine} Engine
 * @typedef {{id: string, label: string, key?: string, run: (store: Store, engine: Engine) => void}} Action
 * @typedef {{id: string, title: string, mount: (root: HTMLElement, store: Store, engine: Engine) => void,
 *   actions?: Action[]}} Panel
 */

/** @type {Panel[]} */
export const PANELS = [textPanel, partsPanel, planPanel, trainingPanel, filesPanel];
