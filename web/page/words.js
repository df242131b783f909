/* Numbers and names as the page writes them. */

const english = new Intl.NumberFormat("en");

export const plain = number => english.format(number);
export const counted = (number, one, more) => `${plain(number)} ${number === 1 ? one : more}`;
export const cellCount = number => counted(number, "cell", "cells");
export const hex = bytes => [...bytes].map(it => it.toString(16).padStart(2, "0")).join("");
export const bitsOf = (number, places) => places.map(place => number >>> place & 1);
