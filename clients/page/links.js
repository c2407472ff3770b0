// Addresses: what the address of the page asks for, that of a server, and whether a link works for others.
"use strict";

const given = new URLSearchParams(location.search);

/**
 * Whether a host is this computer, for whoever asks.
 * @param {string} hostname
 */
const isThisComputer = (hostname) => /^(localhost|127(\.\d+){3}|\[::1\])$/.test(hostname);

/**
 * An address without a name and a password in it, which go into no link, and are not kept.
 * @param {string} address
 */
const withoutLogin = (address) => address.replace(/^(\w+:\/\/)[^/?#]*@/, "$1");

/**
 * Whether the page belongs to the server of an address: both have the same host, or are on this computer.
 * @param {string} address
 */
function isOwnServer(address) {
  try {
    const { hostname } = new URL(address);
    const isHere = location.protocol === "file:" || isThisComputer(location.hostname);
    return isHere ? isThisComputer(hostname) : hostname === location.hostname;
  } catch {
    return false;
  }
}

/**
 * Why a link to this page and to the address of a server works for nobody else: perhaps for several reasons or none.
 * @param {string} address
 */
function whyOnlyHere(address) {
  const reasons = [];
  if (location.protocol === "file:") reasons.push("you opened the page as a file");
  else if (isThisComputer(location.hostname)) reasons.push(`the page comes from ${location.host}`);
  const { hostname, host } = new URL(address);
  if (isThisComputer(hostname)) reasons.push(`the server's address is ${host}`);
  return reasons;
}

/**
 * The address that the form begins with. Behind a proxy, each room has its own path.
 * @param {string} room
 */
function usualAddress(room) {
  if (location.protocol === "https:") return `wss://${location.host}/${room}`;
  const isHere = location.protocol === "file:" || isThisComputer(location.hostname);
  return isHere ? "ws://127.0.0.1:9001" : `ws://${location.host}/${room}`;
}
