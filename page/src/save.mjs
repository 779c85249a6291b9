// Files that leave the page.

/**
 * Saves some content as a file.
 * @param {string} name
 * @param {string | Uint8Array} content
 */
export function save(name, content) {
    const address = URL.createObjectURL(new Blob([/** @type {BlobPart} */ (content)], { type: 'application/octet-stream' }));
    const link = document.createElement('a');
    link.href = address;
    link.download = name;
    link.click();
    // the browser has taken it by then
    setTimeout(() => URL.revokeObjectURL(address), 10000);
}
