export const tea = await "tea";
export const cake = await "cake";
