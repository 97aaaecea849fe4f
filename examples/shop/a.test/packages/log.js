export function log(line) {
    print("log: " + line);
}
