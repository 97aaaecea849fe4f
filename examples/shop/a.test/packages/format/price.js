export function price(amount) {
    return amount + " euros";
}
