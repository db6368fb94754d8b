// Drawing on WebGL 2: flat shading with a depth buffer, since solids that cut each other are the point.

import { GROUND, PIERCED } from "./colours.js";
import { FACE_FRAGMENT, FACE_VERTEX, FLAT_FRAGMENT, FLAT_VERTEX, MARK_FRAGMENT, MARK_VERTEX } from "./shaders.js";
import { edgeNumbers, faceNumbers, farNumbers, markNumbers } from "./shapes.js";
import { matrixOf } from "./view.js";

const FLOAT = 4; // bytes
const LIGHT = [0.25, 0.45, 0.86]; // from the viewer's upper right, so that it turns with the eye

function shader(gl, kind, source) {
    const made = gl.createShader(kind);
    gl.shaderSource(made, source);
    gl.compileShader(made);
    if (!gl.getShaderParameter(made, gl.COMPILE_STATUS) && !gl.isContextLost()) throw new Error(gl.getShaderInfoLog(made));
    return made;
}

/** A program with the sizes of its attributes, which lie one behind the other for each corner. */
function program(gl, vertex, fragment, sizes) {
    const made = gl.createProgram();
    gl.attachShader(made, shader(gl, gl.VERTEX_SHADER, vertex));
    gl.attachShader(made, shader(gl, gl.FRAGMENT_SHADER, fragment));
    gl.linkProgram(made);
    const stride = Object.values(sizes).reduce((sum, size) => sum + size, 0), array = gl.createVertexArray(), buffer = gl.createBuffer();
    gl.bindVertexArray(array);
    gl.bindBuffer(gl.ARRAY_BUFFER, buffer);
    let offset = 0;
    for (const [name, size] of Object.entries(sizes)) {
        const place = gl.getAttribLocation(made, name);
        gl.enableVertexAttribArray(place);
        gl.vertexAttribPointer(place, size, gl.FLOAT, false, stride * FLOAT, offset * FLOAT);
        offset += size;
    }
    return { made, array, buffer, stride, uniform: (name) => gl.getUniformLocation(made, name) };
}

/** Uploads the numbers and makes the program the one in use; answers how many corners there are. */
function prepared(gl, tool, numbers) {
    gl.useProgram(tool.made);
    gl.bindVertexArray(tool.array);
    gl.bindBuffer(gl.ARRAY_BUFFER, tool.buffer);
    gl.bufferData(gl.ARRAY_BUFFER, new Float32Array(numbers), gl.DYNAMIC_DRAW);
    return numbers.length / tool.stride;
}

export class Drawing {
    /** Null canvases and browsers without WebGL 2 are the page's to tell: `works` says which. */
    constructor(canvas) {
        this.canvas = canvas;
        this.gl = canvas.getContext("webgl2", { antialias: true, alpha: false, preserveDrawingBuffer: true });
        this.works = this.gl !== null;
        if (this.works) this.begin();
    }

    /** Also called when the browser hands a lost context back. */
    begin() {
        const gl = this.gl;
        this.faces = program(gl, FACE_VERTEX, FACE_FRAGMENT, { row: 4, normal: 3, colour: 3, hatched: 1 });
        this.lines = program(gl, FLAT_VERTEX, FLAT_FRAGMENT, { place: 4, colour: 3 });
        this.marks = program(gl, MARK_VERTEX, MARK_FRAGMENT, { place: 4, colour: 3, size: 1, filled: 1 });
        gl.enable(gl.DEPTH_TEST);
        gl.depthFunc(gl.LEQUAL);
        gl.clearColor(...GROUND, 1);
    }

    clear(size) {
        const gl = this.gl;
        gl.viewport(0, 0, this.canvas.width, this.canvas.height);
        gl.depthMask(true);
        gl.clear(gl.COLOR_BUFFER_BIT | gl.DEPTH_BUFFER_BIT);
        this.pixel = this.canvas.height / size.height;
    }

    /** Lines and marks first: a translucent face tints what is behind it, and hides nothing in front. */
    draw({ scene, view, size, marks, pointed, picked, opacity, edges }) {
        const matrix = matrixOf(view, size);
        this.clear(size);
        const lines = edges ? edgeNumbers(scene, marks, pointed, matrix, size) : [];
        this.drawLines([...lines, ...farNumbers(scene, view, matrix, size)]);
        this.drawMarks(markNumbers(scene, marks, picked, matrix));
        this.drawFaces(faceNumbers(scene, marks, pointed, matrix, size), view, matrix, opacity);
    }

    drawLines(numbers) {
        const gl = this.gl, corners = prepared(gl, this.lines, numbers);
        gl.drawArrays(gl.TRIANGLES, 0, corners);
    }

    drawMarks(numbers) {
        const gl = this.gl, corners = prepared(gl, this.marks, numbers);
        gl.uniform1f(this.marks.uniform("pixel"), this.pixel);
        gl.uniform3fv(this.marks.uniform("ground"), GROUND);
        gl.drawArrays(gl.POINTS, 0, corners);
    }

    /** Faces are pushed back a little, so that their own edges lie on them. */
    drawFaces(numbers, view, matrix, opacity) {
        const gl = this.gl, corners = prepared(gl, this.faces, numbers);
        const toLight = [0, 1, 2].map((k) => LIGHT.reduce((sum, part, axis) => sum + part * view.axes[axis][k], 0));
        gl.uniformMatrix4fv(this.faces.uniform("matrix"), true, matrix.flat());
        gl.uniform3fv(this.faces.uniform("toLight"), toLight);
        gl.uniform3fv(this.faces.uniform("pierced"), PIERCED);
        gl.uniform1f(this.faces.uniform("opacity"), opacity);
        gl.uniform1f(this.faces.uniform("pixel"), this.pixel);
        gl.enable(gl.POLYGON_OFFSET_FILL);
        gl.polygonOffset(1, 2);
        if (opacity < 1) gl.enable(gl.BLEND);
        gl.blendFunc(gl.SRC_ALPHA, gl.ONE_MINUS_SRC_ALPHA);
        gl.depthMask(opacity >= 1);
        for (const sign of [1, -1]) {
            gl.uniform1f(this.faces.uniform("sign"), sign);
            gl.drawArrays(gl.TRIANGLES, 0, corners);
        }
        gl.disable(gl.BLEND);
        gl.disable(gl.POLYGON_OFFSET_FILL);
    }
}
