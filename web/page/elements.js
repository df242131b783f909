/* The elements of the page. */

export const at = id => document.getElementById(id);

export function cellOf(kind, text, name) {
    const made = document.createElement(kind);
    made.textContent = text;
    if (name) {
        made.className = name;
    }
    return made;
}

export function rowOf(...cells) {
    const row = document.createElement("tr");
    row.append(...cells);
    return row;
}
