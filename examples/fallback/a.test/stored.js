export function stored() {
    return "fr";
}
