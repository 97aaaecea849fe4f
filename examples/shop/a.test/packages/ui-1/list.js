export function list(one, other) {
    return " - " + one + " - " + other;
}
