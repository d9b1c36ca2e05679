// Three workers, which answer by messages.
const { Worker, isMainThread, parentPort, workerData } = require("worker_threads");
if (isMainThread) {
    const answers = [];
    for (let i = 1; i <= 3; i++)
        new Worker(__filename, { workerData: i }).on("message", (answer) => {
            answers.push(answer);
            if (answers.length === 3) console.log(answers.join(" "));
        });
} else {
    let sum = 0;
    for (let i = 0; i < 1000 * workerData; i++) sum += i;
    parentPort.postMessage(sum);
}
