export const session = await user();

function user() {
    return "Ada";
}
