export function element(content) {
    return " [" + content + "]";
}
