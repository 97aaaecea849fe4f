// HTML, "parse an import map string" and "resolve a module specifier", written anew over node's URL: against_node holds the program
// against it. Reads cases (a map, specifiers, referrers) from a file and writes what each specifier comes to: a URL or a fault, as the
// program names it; the map's fault alone where it is refused. Own, as in the program: two keys that become one refuse the map (M4).
import fs from "node:fs";

class Fault extends Error {}

const BASE = "https://a.test/";
const SPECIAL = ["ftp:", "file:", "http:", "https:", "ws:", "wss:"];
const parse = (text, base) => {
    try { return new URL(text, base); } catch { return null; }
};
const urlLike = (text, base) => (/^(\/|\.\/|\.\.\/)/.test(text) ? parse(text, base) : parse(text));
const isObject = (value) => value !== null && typeof value === "object" && !Array.isArray(value);
const fault = (name) => { throw new Fault(name); };
const told = (make) => {
    try { return make(); } catch (e) { if (e instanceof Fault) return e.message; throw e; }
};
// In descending order of code units.
const sorted = (map) => [...map].sort(([x], [y]) => (x < y ? 1 : x > y ? -1 : 0));

function address(key, value) {
    if (typeof value !== "string") return null;
    const url = urlLike(value, BASE);
    return url && key.endsWith("/") && !url.href.endsWith("/") ? null : url;
}

function specifierMap(entries) {
    const map = new Map();
    for (const [key, value] of Object.entries(entries)) {
        if (key === "") continue;
        const name = urlLike(key, BASE)?.href ?? key;
        if (map.has(name)) fault("M4");
        map.set(name, address(key, value));
    }
    return sorted(map);
}

function scopesOf(entries) {
    const scopes = new Map();
    for (const [prefix, map] of Object.entries(entries)) {
        const url = parse(prefix, BASE);
        if (!url) continue;
        if (scopes.has(url.href)) fault("M4");
        scopes.set(url.href, specifierMap(map));
    }
    return sorted(scopes);
}

function importMap(text) {
    const { imports = {}, scopes = {} } = isObject(JSON.parse(text)) ? JSON.parse(text) : fault("M2");
    if (!isObject(imports) || !isObject(scopes) || !Object.values(scopes).every(isObject)) fault("M3");
    return { imports: specifierMap(imports), scopes: scopesOf(scopes) };
}

function match(name, url, map) {
    for (const [key, address] of map) {
        if (key === name) return address ?? fault("S1");
        if (key.endsWith("/") && name.startsWith(key) && (!url || SPECIAL.includes(url.protocol))) {
            if (address === null) fault("S1");
            const found = parse(name.slice(key.length), address.href) ?? fault("S2");
            return found.href.startsWith(address.href) ? found : fault("S3");
        }
    }
    return null;
}

function resolve(map, specifier, referrer) {
    const url = urlLike(specifier, referrer);
    const name = url?.href ?? specifier;
    const inside = ([prefix]) => prefix === referrer || (prefix.endsWith("/") && referrer.startsWith(prefix));
    for (const [, imports] of map.scopes.filter(inside)) {
        const found = match(name, url, imports);
        if (found) return found.href;
    }
    return (match(name, url, map.imports) ?? url ?? fault("S4")).href;
}

const comeTo = ({ map, specifiers, referrers }) => told(() => {
    const read = importMap(map);
    return referrers.map((referrer) => specifiers.map((specifier) => told(() => resolve(read, specifier, referrer))));
});
console.log(JSON.stringify(JSON.parse(fs.readFileSync(process.argv[2], "utf8")).map(comeTo)));
