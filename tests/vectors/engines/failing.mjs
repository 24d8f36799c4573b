const made = () => { throw new Error("failing"); }; await null; made();
